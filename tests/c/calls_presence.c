/*
 * The presence of document 02, #107: with 767 symbols after an accepted frame the partner is still present, with 768 no
 * more, whatever the symbols are.
 */
#include "calls.h"

/* What completes no frame, taken again and again. */
static const struct {
    size_t length;
    uint16_t symbols[12];
} silences[] = {
    {1, {0x100}},                      /* ignored */
    {1, {0x3FF}},                      /* marked */
    {1, {0x000}},                      /* even: each breaks the collection before */
    {4, {0x000, 0x100, 0x100, 0x300}}, /* collections broken by a mark */
    {12, {0x000, 0x100, 0x100, 0x100, 0x100, 0x100, 0x100, 0x100, 0x100, 0x080, 0x1A0, 0x001}}, /* P3 */
};
#define SILENCES (sizeof silences / sizeof *silences)

/* P1, whatever collection its first symbol breaks. */
static void accept(void)
{
    CHECK(is(take(a, 0x000), 0, 0));
    for (int i = 1; i < 12; i++)
        CHECK(told(take_reason(a, 0x100), 0, i == 11 ? 1 : 0, 0));
}

/* The n-th symbol of a silence, by either call. */
static void take_silent(size_t silence, unsigned n)
{
    uint16_t symbol = silences[silence].symbols[n % silences[silence].length];
    if (n % 2 == 0) {
        CHECK(is(take(a, symbol), 0, 0));
    } else {
        simhadol_taken taken = take_reason(a, symbol);
        CHECK(taken.answer == 0 && taken.reason != 1);
    }
}

/* So much is left, by the bytes and by the macro, and the call says the same. */
static void is_left(unsigned wanted)
{
    CHECK(left(a) == wanted && SIMHADOL_COUNT_AT(a, SIMHADOL_PRESENCE_LEFT) == wanted);
    CHECK(is(present(a), 0, wanted > 0));
}

static void lay_left(unsigned value)
{
    a[PRESENCE_LEFT] = (uint8_t)(value / 256);
    a[PRESENCE_LEFT + 1] = (uint8_t)(value % 256);
}

static void macros(void)
{
    CHECK(SIMHADOL_PRESENCE == 768 && SIMHADOL_PRESENCE_LEFT == 99);
}

static void from_reset(void)
{
    is_left(0);
    CHECK(is(take(a, 0x000), 0, 0));
    for (int i = 1; i < 12; i++) {
        CHECK(a[COUNT] == i);
        is_left(0);
        CHECK(is(take(a, 0x100), 0, 0));
    }
    CHECK(a[COUNT] == 0 && symbol_at(a, RX, 0) == 0x000 && symbol_at(a, RX, 11) == 0x100);
    is_left(768);
    CHECK(is(simhadol_reset(a, LENGTH), 0, 0));
    is_left(0);
}

static void lapses(void)
{
    for (size_t silence = 0; silence < SILENCES; silence++) {
        CHECK(is(simhadol_reset(a, LENGTH), 0, 0));
        accept();
        is_left(768);
        for (unsigned later = 1; later <= 767; later++) {
            take_silent(silence, later - 1);
            is_left(768 - later);
        }
        for (unsigned later = 768; later <= 2000; later++) {
            take_silent(silence, later - 1);
            is_left(0);
        }
        accept();
        is_left(768);
    }
}

/* 756 symbols and the twelve of a frame are 768. */
static void renewed(void)
{
    for (size_t silence = 0; silence < SILENCES; silence++)
        for (unsigned gap = 755; gap <= 758; gap++) {
            CHECK(is(simhadol_reset(a, LENGTH), 0, 0));
            accept();
            for (unsigned n = 0; n < gap; n++)
                take_silent(silence, n);
            for (int i = 0; i < 11; i++)
                CHECK(is(take(a, i == 0 ? 0x000 : 0x100), 0, 0));
            is_left(gap < 757 ? 757 - gap : 0);
            CHECK(is(take(a, 0x100), 0, 0));
            is_left(768);
            CHECK(is(take(a, 0x100), 0, 0));
            is_left(767);
        }
}

/* The two bytes are one number, the high one first: 3 and 0 are in range, 3 and 1 are not. */
static void every_value(void)
{
    for (unsigned value = 0; value < 65536; value++) {
        lay_left(value);
        if (value <= 768) {
            is_left(value);
            take_silent(value % SILENCES, 0);
            is_left(value > 0 ? value - 1 : 0);
            CHECK(is(simhadol_reset(a, LENGTH), 0, 0));
        } else {
            uint8_t before[sizeof room_a];
            memcpy(before, room_a, sizeof before);
            all_give_11(a, LENGTH);
            CHECK(memcmp(before, room_a, sizeof before) == 0);
        }
    }
    CHECK(is(simhadol_reset(a, LENGTH), 0, 0));
    is_left(0);
}

static void refused_symbols_and_other_calls(void)
{
    static const unsigned values[] = {0, 1, 2, 256, 768};
    for (size_t i = 0; i < sizeof values / sizeof *values; i++) {
        lay_left(values[i]);
        for (unsigned symbol = 1024; symbol < 65536; symbol += 61)
            CHECK(is(take(a, (uint16_t)symbol), 5, 0) && told(take_reason(a, (uint16_t)symbol), 5, 0, 0));
        a[POSITION] = 12;
        CHECK(is(take(a, 0x100), 11, 0) && told(take_reason(a, 0x3FF), 11, 0, 0) && is(present(a), 11, 0));
        a[POSITION] = 0;
        for (int sent = 0; sent < 30; sent++)
            CHECK(send(a).answer == 0);
        for (uint16_t number = 2307; number <= 2318; number++) {
            read(a, number);
            write(a, number, 0);
            write(a, number, 0x8500);
        }
        for (uint16_t health = 0; health <= 4; health++)
            set_health(a, health);
        CHECK(counts(a).answer == 0);
        is_left(values[i]);
    }
}

/* A source without OAM: each symbol alone from reset on, then with every third, fourth or fifth of them marked. */
static void a_field_that_stays_the_same(void)
{
    for (uint16_t symbol = 0; symbol < 1024; symbol++) {
        CHECK(is(simhadol_reset(a, LENGTH), 0, 0));
        for (int n = 0; n < 2000; n++) {
            bool marked = n >= 1000 && n % (3 + n / 13 % 3) == 0;
            CHECK(is(take(a, marked ? symbol | SIMHADOL_MARK : symbol), 0, 0));
            CHECK(left(a) == 0);
        }
        CHECK(is(present(a), 0, 0) && SIMHADOL_COUNT_AT(a, SIMHADOL_ACCEPTED_COUNT) == 0);
    }
}

/* What is left goes on from the older record's. */
static void restored(void)
{
    uint8_t kept[LENGTH];
    accept();
    take_silent(0, 0);
    memcpy(kept, a, LENGTH);
    for (unsigned n = 0; n < 1000; n++)
        take_silent(0, n);
    is_left(0);
    memcpy(a, kept, LENGTH);
    is_left(767);
    take_silent(0, 0);
    is_left(766);
}

const struct test presence_tests[] = {
    {"the macros of presence", macros},
    {"presence comes with the twelfth symbol, and goes with reset", from_reset},
    {"767 symbols without a frame: present; 768: absent", lapses},
    {"a frame that completes on the 768th symbol renews in time, on the 769th not", renewed},
    {"every value of what is left: above 768 it is 11", every_value},
    {"refused symbols and other calls let nothing lapse", refused_symbols_and_other_calls},
    {"a field that stays the same never becomes present: all 1,024", a_field_that_stays_the_same},
    {"restored presence goes on", restored},
    {NULL, NULL},
};
