// header: the header is C++ too, included twice or not, and its calls are found when a C++ program is linked.
#include "simhadol.h"
#include "simhadol.h"

int main()
{
    uint8_t record[SIMHADOL_RECORD_LENGTH];
    simhadol_reply reply = simhadol_reset(record, simhadol_record_length());
    bool good = reply.answer == SIMHADOL_DONE;
    good = good && simhadol_send(record, sizeof record).answer == SIMHADOL_DONE;
    good = good && simhadol_take(record, sizeof record, 1024).answer == SIMHADOL_BAD_SYMBOL;
    simhadol_taken taken = simhadol_take_reason(record, sizeof record, 0);
    good = good && taken.answer == SIMHADOL_DONE && taken.reason == SIMHADOL_REASON_NOTHING && taken.symbols == 0;
    taken = simhadol_take_reason(record, sizeof record, SIMHADOL_MARK);
    good = good && taken.answer == SIMHADOL_DONE && taken.reason == SIMHADOL_REASON_MARKED && taken.symbols == 1;
    good = good && simhadol_read(record, sizeof record, 2318).answer == SIMHADOL_NO_SUCH_REGISTER;
    good = good && simhadol_write(record, sizeof record, 2313, 0).answer == SIMHADOL_READ_ONLY_REGISTER;
    good = good && simhadol_write(record, sizeof record, 2308, 1).answer == SIMHADOL_READ_ONLY_BITS;
    good = good && simhadol_write(record, sizeof record, 2308, 0x8000).answer == SIMHADOL_DONE;
    good = good && simhadol_write(record, sizeof record, 2309, 0).answer == SIMHADOL_BLOCKED;
    good = good && simhadol_set_health(record, sizeof record, 4).answer == SIMHADOL_BAD_HEALTH;
    good = good && simhadol_present(record, sizeof record - 1).answer == SIMHADOL_BAD_RECORD;
    simhadol_counted counted = simhadol_counts(record, sizeof record);
    good = good && counted.answer == SIMHADOL_DONE && counted.accepted == 0 && counted.crc == 0;
    good = good && counted.marked == 1 && counted.early == 0;
    good = good && SIMHADOL_COUNT_AT(record, SIMHADOL_ACCEPTED_COUNT) == 0;
    good = good && SIMHADOL_COUNT_AT(record, SIMHADOL_CRC_COUNT) == 0;
    good = good && SIMHADOL_COUNT_AT(record, SIMHADOL_MARKED_COUNT) == 1;
    good = good && SIMHADOL_COUNT_AT(record, SIMHADOL_EARLY_COUNT) == 0;
    good = good && SIMHADOL_COUNT_AT(record, SIMHADOL_PRESENCE_LEFT) == 0 && SIMHADOL_PRESENCE == 768;
    const uint8_t first[SIMHADOL_RECORD_LENGTH_1] = {0, SIMHADOL_RECORD_LENGTH_1, 1};
    good = good && simhadol_upgrade(first, sizeof first, record, sizeof record).answer == SIMHADOL_DONE;
    const uint8_t second[SIMHADOL_RECORD_LENGTH_2] = {0, SIMHADOL_RECORD_LENGTH_2, 2};
    good = good && simhadol_upgrade(second, sizeof second, record, sizeof record).answer == SIMHADOL_DONE;
    good = good && simhadol_upgrade(record, sizeof record, NULL, 0).answer == SIMHADOL_BAD_RECORD;
    return good ? 0 : 1;
}
