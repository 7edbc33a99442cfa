/*
 * Records, and bytes that are none: document 02, #104, with #107's version 3. A refusal leaves every byte.
 */
#include "calls.h"

static void the_macro_is_the_length(void)
{
    CHECK(SIMHADOL_RECORD_LENGTH == LENGTH && SIMHADOL_RECORD_LENGTH_1 == 92 && SIMHADOL_RECORD_LENGTH_2 == 100);
    CHECK(simhadol_record_length() == LENGTH);
}

/* After reset everything is 0 and the sender is ready. */
static void is_reset_record(const uint8_t *record)
{
    static const uint8_t head[] = {0, 101, 3};
    CHECK(memcmp(record, head, sizeof head) == 0);
    CHECK(all(record + TX, READY - TX, 0));
    CHECK(record[READY] == 1);
    CHECK(all(record + READY + 1, LENGTH - READY - 1, 0));
}

static void reset_fills_the_record(void)
{
    for (int before = 0; before < 256; before++) {
        memset(a, before, LENGTH);
        CHECK(is(simhadol_reset(a, LENGTH), 0, 0));
        is_reset_record(a);
    }
}

static void reset_wants_101_bytes(void)
{
    static const size_t lengths[] = {0, 1, 92, 100, 102};
    for (size_t i = 0; i < sizeof lengths / sizeof *lengths; i++) {
        memset(room_a, GUARD, sizeof room_a);
        CHECK(is(simhadol_reset(a, lengths[i]), 11, 0));
        CHECK(all(room_a, sizeof room_a, GUARD));
    }
}

void all_give_11(uint8_t *record, size_t length)
{
    CHECK(is(simhadol_send(record, length), 11, 0));
    CHECK(is(simhadol_take(record, length, 0), 11, 0));
    CHECK(is(simhadol_take(record, length, 1024), 11, 0));
    CHECK(told(simhadol_take_reason(record, length, 0), 11, 0, 0));
    CHECK(told(simhadol_take_reason(record, length, 1024), 11, 0, 0));
    CHECK(is(simhadol_read(record, length, 2308), 11, 0));
    CHECK(is(simhadol_read(record, length, 2307), 11, 0));
    CHECK(is(simhadol_write(record, length, 2309, 1), 11, 0));
    CHECK(is(simhadol_write(record, length, 2307, 1), 11, 0));
    CHECK(is(simhadol_write(record, length, 2313, 1), 11, 0));
    CHECK(is(simhadol_write(record, length, 2308, 0x70FB), 11, 0));
    CHECK(is(simhadol_set_health(record, length, 3), 11, 0));
    CHECK(is(simhadol_set_health(record, length, 4), 11, 0));
    CHECK(is(simhadol_present(record, length), 11, 0));
    CHECK(counted(simhadol_counts(record, length), 11, 0, 0, 0, 0));
}

/* The same for record a, whose bytes stay. */
static void a_is_refused(size_t length)
{
    uint8_t before[sizeof room_a];
    memcpy(before, room_a, sizeof before);
    all_give_11(a, length);
    CHECK(memcmp(before, room_a, sizeof before) == 0);
}

static void null_with_length_0(void)
{
    CHECK(is(simhadol_reset(NULL, 0), 11, 0));
    all_give_11(NULL, 0);
}

static void areas_of_other_lengths(void)
{
    for (size_t length = 0; length <= LENGTH + SIDE; length++)
        if (length != LENGTH)
            a_is_refused(length);
}

static void heads_of_other_values(void)
{
    for (size_t place = 0; place <= VERSION; place++) {
        uint8_t right = a[place];
        for (int value = 0; value < 256; value++) {
            a[place] = (uint8_t)value;
            if (value != right)
                a_is_refused(LENGTH);
        }
        a[place] = right;
    }
    CHECK(is(present(a), 0, 0));
    /* little-endian */
    a[0] = 101, a[1] = 0;
    a_is_refused(LENGTH);
}

int largest(size_t place)
{
    static const struct {
        size_t first, last;
        int largest;
    } rows[] = {{27, 27, 11}, {28, 29, 1}, {30, 31, 3}, {32, 35, 1}, {36, 36, 15}, {37, 37, 1},   {38, 45, 255},
                {70, 70, 11}, {71, 71, 3}, {72, 81, 1}, {82, 82, 15}, {83, 98, 255}, {99, 99, 3}, {100, 100, 255}};
    for (size_t i = 0; i < sizeof rows / sizeof *rows; i++)
        if (rows[i].first <= place && place <= rows[i].last)
            return rows[i].largest;
    /* symbols: 511 is 01 FF */
    return (place - (place < RX ? TX : RX)) % 2 == 0 ? 1 : 255;
}

static void bytes_out_of_range(void)
{
    for (size_t place = TX; place < LENGTH; place++) {
        uint8_t before = a[place];
        a[place] = (uint8_t)largest(place);
        CHECK(present(a).answer == 0);
        if (largest(place) < 255) {
            a[place] = (uint8_t)(largest(place) + 1);
            a_is_refused(LENGTH);
            a[place] = 255;
            a_is_refused(LENGTH);
        }
        a[place] = before;
    }
}

/* Every answer but 0 and 11, with a message pending: 10 comes before 4. */
static void refusals_leave_the_bytes(void)
{
    uint8_t before[LENGTH];
    write(a, 2308, 0x8500);
    memcpy(before, a, LENGTH);
    CHECK(is(read(a, 2318), 2, 0));
    CHECK(is(write(a, 2307, 1), 2, 0));
    CHECK(is(write(a, 2313, 0xFFFF), 3, 0));
    CHECK(is(write(a, 2308, 0x8600), 4, 0));
    CHECK(is(write(a, 2309, 1), 4, 0));
    CHECK(is(take(a, 1024), 5, 0));
    CHECK(told(take_reason(a, 1024), 5, 0, 0));
    CHECK(is(set_health(a, 4), 6, 0));
    CHECK(is(write(a, 2308, 0x8001), 10, 0));
    CHECK(is(write(a, 2308, 0x4004), 10, 0));
    CHECK(memcmp(before, a, LENGTH) == 0);
}

const struct test record_tests[] = {
    {"the macro equals the call: 101; those of versions 1 and 2 are 92 and 100", the_macro_is_the_length},
    {"reset fills the record, whatever was there", reset_fills_the_record},
    {"reset on 0, 1, 92, 100 and 102 bytes: 11, nothing written", reset_wants_101_bytes},
    {"NULL with length 0: 11", null_with_length_0},
    {"a good record in areas of other lengths: 11", areas_of_other_lengths},
    {"other length bytes, other versions: 11", heads_of_other_values},
    {"each byte at its largest value, and above: 11", bytes_out_of_range},
    {"refusals leave the bytes", refusals_leave_the_bytes},
    {NULL, NULL},
};
