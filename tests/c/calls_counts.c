/*
 * The counts of document 02, #106: frames accepted, collections failed by the CRC, and those broken by a mark or by an
 * early even symbol. Each stops at 65,535.
 */
#include "calls.h"

#define KINDS 4

/* What makes one of each, and where its count stands in a record. Of the last, a collection must be there to break. */
static const struct {
    size_t at, length;
    uint16_t symbols[12];
} events[KINDS] = {
    {91, 12, {0x000, 0x100, 0x100, 0x100, 0x100, 0x100, 0x100, 0x100, 0x100, 0x100, 0x100, 0x100}}, /* P1 */
    {93, 12, {0x000, 0x100, 0x100, 0x100, 0x100, 0x100, 0x100, 0x100, 0x100, 0x080, 0x1A0, 0x001}}, /* P3 */
    {95, 2, {0x000, 0x300}},
    {97, 1, {0x000}},
};
enum { EARLY = 3 };

static void make_event(int kind)
{
    for (size_t i = 0; i < events[kind].length; i++)
        CHECK(is(take(a, events[kind].symbols[i]), 0, 0));
}

/* Ready for events of a kind: nothing is counted yet. */
static void prepare(int kind)
{
    CHECK(is(simhadol_reset(a, LENGTH), 0, 0));
    if (kind == EARLY)
        CHECK(is(take(a, 0x000), 0, 0));
    CHECK(all(a + COUNTS, 8, 0));
}

static void lay_count(int kind, unsigned count)
{
    a[events[kind].at] = (uint8_t)(count / 256);
    a[events[kind].at + 1] = (uint8_t)(count % 256);
}

/* The count of a kind is this, and the others are that, by the call and by the bytes. */
static void counts_are(int kind, unsigned count, unsigned others)
{
    unsigned wanted[KINDS];
    for (int i = 0; i < KINDS; i++) {
        wanted[i] = i == kind ? count : others;
        CHECK(a[events[i].at] == wanted[i] / 256 && a[events[i].at + 1] == wanted[i] % 256);
    }
    CHECK(counted(counts(a), 0, (uint16_t)wanted[0], (uint16_t)wanted[1], (uint16_t)wanted[2], (uint16_t)wanted[3]));
}

static void layout(void)
{
    CHECK(sizeof(simhadol_counted) == 10 && offsetof(simhadol_counted, answer) == 0);
    CHECK(offsetof(simhadol_counted, accepted) == 2 && offsetof(simhadol_counted, crc) == 4);
    CHECK(offsetof(simhadol_counted, marked) == 6 && offsetof(simhadol_counted, early) == 8);
    CHECK(SIMHADOL_ACCEPTED_COUNT == 91 && SIMHADOL_CRC_COUNT == 93);
    CHECK(SIMHADOL_MARKED_COUNT == 95 && SIMHADOL_EARLY_COUNT == 97);
}

/* The high byte comes first, by the call and by the macro. */
static void read_by_call_and_by_place(void)
{
    static const uint8_t bytes[] = {0x01, 0x02, 0x80, 0x04, 0xF5, 0xF6, 0xFF, 0x08};
    const uint8_t *record = a;
    int first = 1;
    memcpy(a + COUNTS, bytes, sizeof bytes);
    CHECK(counted(counts(record), 0, 0x0102, 0x8004, 0xF5F6, 0xFF08));
    CHECK(SIMHADOL_COUNT_AT(record, SIMHADOL_ACCEPTED_COUNT) == 0x0102);
    CHECK(SIMHADOL_COUNT_AT(record, SIMHADOL_CRC_COUNT) == 0x8004);
    CHECK(SIMHADOL_COUNT_AT(record, SIMHADOL_MARKED_COUNT) == 0xF5F6);
    CHECK(SIMHADOL_COUNT_AT(record, SIMHADOL_EARLY_COUNT) == 0xFF08);
    /* expressions as arguments */
    CHECK(SIMHADOL_COUNT_AT(record - 2, first ? SIMHADOL_CRC_COUNT : 0) == 0x0102);
    CHECK(sizeof SIMHADOL_COUNT_AT(record, SIMHADOL_EARLY_COUNT) == 2);
    /* of what is no record, none is given */
    a[VERSION] = 1;
    CHECK(counted(counts(record), 11, 0, 0, 0, 0));
    CHECK(memcmp(a + COUNTS, bytes, sizeof bytes) == 0);
}

static void each_counts_its_own(void)
{
    for (int kind = 0; kind < KINDS; kind++) {
        prepare(kind);
        for (unsigned count = 1; count <= 4; count++) {
            make_event(kind);
            counts_are(kind, count, 0);
        }
    }
}

/* From one low byte to the next, and to the last value, where each stays. */
static void carries_and_stops(void)
{
    static const struct {
        unsigned first, then[4];
    } runs[] = {
        {254, {255, 256, 257, 258}},
        {32766, {32767, 32768, 32769, 32770}},
        {65278, {65279, 65280, 65281, 65282}},
        {65533, {65534, 65535, 65535, 65535}},
    };
    static const unsigned others[] = {0, 7, 65533, 65535};
    for (int kind = 0; kind < KINDS; kind++)
        for (size_t run = 0; run < 4; run++)
            for (size_t other = 0; other < 4; other++) {
                prepare(kind);
                for (int i = 0; i < KINDS; i++)
                    lay_count(i, i == kind ? runs[run].first : others[other]);
                for (size_t i = 0; i < 4; i++) {
                    make_event(kind);
                    counts_are(kind, runs[run].then[i], others[other]);
                }
            }
}

/* No byte is laid here: every event from reset on is made. (Accepted frames are the bench's, by its slots.) */
static void from_reset_to_the_last(void)
{
    for (int kind = 1; kind < KINDS; kind++) {
        prepare(kind);
        for (unsigned made = 0; made < 65534; made++)
            make_event(kind);
        counts_are(kind, 65534, 0);
        make_event(kind);
        counts_are(kind, 65535, 0);
        for (int more = 0; more < 5; more++)
            make_event(kind);
        counts_are(kind, 65535, 0);
    }
}

/* What breaks no collection and ends none, and what is refused. */
static void nothing_to_count(void)
{
    static const uint16_t symbols[] = {0x3FF, 0x200, 0x100, 0x1FF, 0x000, 0x100, 0x001};
    for (size_t i = 0; i < sizeof symbols / sizeof *symbols; i++) {
        CHECK(is(take(a, symbols[i]), 0, 0));
        counts_are(0, 0, 0);
        /* marked and even too, were it not too large */
        CHECK(is(take(a, 0x600), 5, 0) && told(take_reason(a, 0xFFFF), 5, 0, 0));
        counts_are(0, 0, 0);
    }
    CHECK(a[COUNT] == 3);
    a[POSITION] = 12;
    CHECK(is(take(a, 0x300), 11, 0) && told(take_reason(a, 0x000), 11, 0, 0));
    CHECK(counted(counts(a), 11, 0, 0, 0, 0));
    CHECK(all(a + COUNTS, 8, 0));
    a[POSITION] = 0;
    CHECK(told(take_reason(a, 0x300), 0, 3, 3));
    counts_are(2, 1, 0);
}

static void other_calls_count_nothing(void)
{
    static const uint8_t bytes[] = {0x00, 0x01, 0x02, 0x03, 0xFF, 0xFE, 0xFF, 0xFF};
    memcpy(a + COUNTS, bytes, sizeof bytes);
    take(a, 0x000);
    for (int i = 0; i < 30; i++)
        CHECK(send(a).answer == 0);
    for (uint16_t number = 2307; number <= 2318; number++) {
        read(a, number);
        write(a, number, 0);
        write(a, number, 0x8500);
        write(a, number, 0xFFFF);
    }
    for (uint16_t health = 0; health <= 4; health++)
        set_health(a, health);
    CHECK(is(present(a), 0, 0));
    CHECK(counted(counts(a), 0, 0x0001, 0x0203, 0xFFFE, 0xFFFF));
    CHECK(memcmp(a + COUNTS, bytes, sizeof bytes) == 0);
}

static void reset_sets_them_back(void)
{
    memset(a + COUNTS, 0xFF, 8);
    CHECK(counted(counts(a), 0, 65535, 65535, 65535, 65535));
    CHECK(is(simhadol_reset(a, LENGTH), 0, 0));
    counts_are(0, 0, 0);
}

/* The counts go on from those of the older record. */
static void restored(void)
{
    uint8_t kept[LENGTH];
    prepare(2);
    make_event(2);
    memcpy(kept, a, LENGTH);
    make_event(2);
    counts_are(2, 2, 0);
    memcpy(a, kept, LENGTH);
    make_event(2);
    make_event(2);
    counts_are(2, 3, 0);
}

const struct test count_tests[] = {
    {"how the counts are laid, in the reply and in a record", layout},
    {"the counts by the call and by their places", read_by_call_and_by_place},
    {"each event counts once, and for its own count alone", each_counts_its_own},
    {"a count carries, and stops at 65,535", carries_and_stops},
    {"65,540 events from reset, one by one", from_reset_to_the_last},
    {"no event and no refused symbol counts", nothing_to_count},
    {"no other call counts", other_calls_count_nothing},
    {"reset sets the counts to 0", reset_sets_them_back},
    {"restored counts go on", restored},
    {NULL, NULL},
};
