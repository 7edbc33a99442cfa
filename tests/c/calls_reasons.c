/*
 * The reason of document 02, #105: what became of the collection, at its twelfth symbol or where it is broken.
 */
#include "calls.h"

enum { NOTHING = 0, ACCEPTED = 1, CRC = 2, MARKED = 3, EARLY = 4 };

static void numbers_and_layout(void)
{
    CHECK(SIMHADOL_REASON_NOTHING == 0 && SIMHADOL_REASON_ACCEPTED == 1 && SIMHADOL_REASON_CRC == 2);
    CHECK(SIMHADOL_REASON_MARKED == 3 && SIMHADOL_REASON_EARLY == 4);
    CHECK(sizeof(simhadol_taken) == 6 && offsetof(simhadol_taken, answer) == 0);
    CHECK(offsetof(simhadol_taken, reason) == 2 && offsetof(simhadol_taken, symbols) == 4);
    CHECK(sizeof(simhadol_reply) == 4 && offsetof(simhadol_reply, value) == 2);
}

/* The first so many symbols of P1, of which nothing is told. */
static void collect(uint16_t count)
{
    CHECK(is(simhadol_reset(a, LENGTH), 0, 0));
    for (uint16_t i = 0; i < count; i++)
        CHECK(told(take_reason(a, i == 0 ? 0x000 : 0x100), 0, NOTHING, 0));
    CHECK(a[COUNT] == count);
}

/* P1, P3 and P2. */
static void twelfth_symbol(void)
{
    static const uint16_t p3[] = {0x000, 0x100, 0x100, 0x100, 0x100, 0x100,
                                  0x100, 0x100, 0x100, 0x080, 0x1A0, 0x001};
    collect(11);
    CHECK(told(take_reason(a, 0x100), 0, ACCEPTED, 0));
    CHECK(a[COUNT] == 0 && left(a) == 768);
    CHECK(is(simhadol_reset(a, LENGTH), 0, 0));
    for (int i = 0; i < 11; i++)
        CHECK(told(take_reason(a, p3[i]), 0, NOTHING, 0));
    CHECK(told(take_reason(a, p3[11]), 0, CRC, 0));
    CHECK(a[COUNT] == 0 && left(a) == 0);
    for (int i = 0; i < 10; i++)
        CHECK(told(take_reason(a, p3[i]), 0, NOTHING, 0));
    CHECK(told(take_reason(a, 0x001), 0, NOTHING, 0));
    CHECK(told(take_reason(a, 0x1A0), 0, ACCEPTED, 0));
    CHECK(a[COUNT] == 0 && left(a) == 768);
}

/* A mark leaves no collection that a second one could break. */
static void broken_by_a_mark(void)
{
    for (uint16_t count = 1; count <= 11; count++)
        for (uint16_t symbol = 512; symbol <= 1023; symbol++) {
            collect(count);
            CHECK(told(take_reason(a, symbol), 0, MARKED, count));
            CHECK(a[COUNT] == 0);
            CHECK(told(take_reason(a, symbol), 0, NOTHING, 0));
        }
}

/* An early even symbol is the first of a new collection, which the next one breaks. */
static void broken_by_an_even_symbol(void)
{
    static const uint16_t even[] = {0x000, 0x003, 0x101, 0x0FF, 0x1FE};
    for (uint16_t count = 1; count <= 11; count++)
        for (size_t i = 0; i < sizeof even / sizeof *even; i++) {
            collect(count);
            CHECK(told(take_reason(a, even[i]), 0, EARLY, count));
            CHECK(a[COUNT] == 1 && symbol_at(a, RX, 0) == even[i]);
            CHECK(told(take_reason(a, 0x000), 0, EARLY, 1));
            CHECK(told(take_reason(a, 0x3FF), 0, MARKED, 1));
        }
}

static void nothing_to_break(void)
{
    CHECK(told(take_reason(a, 0x3FF), 0, NOTHING, 0));
    CHECK(told(take_reason(a, 0x200), 0, NOTHING, 0));
    CHECK(told(take_reason(a, 0x100), 0, NOTHING, 0));
    CHECK(a[COUNT] == 0);
    CHECK(told(take_reason(a, 0x000), 0, NOTHING, 0));
    CHECK(a[COUNT] == 1);
}

/* The frame goes on behind a refused symbol. */
static void refused_symbols(void)
{
    static const uint16_t above[] = {1024, 1536, 2047, 32768, 65535};
    uint8_t before[LENGTH];
    for (uint16_t count = 0; count <= 11; count++) {
        collect(count);
        memcpy(before, a, LENGTH);
        for (size_t i = 0; i < sizeof above / sizeof *above; i++)
            CHECK(told(take_reason(a, above[i]), 5, NOTHING, 0));
        CHECK(memcmp(before, a, LENGTH) == 0);
        CHECK(told(take_reason(a, 0x200), 0, count == 0 ? NOTHING : MARKED, count));
    }
}

/* A record by each of the two calls, over the same symbols. */
static void same_as_take(void)
{
    int counts[EARLY + 1] = {0};
    uint16_t symbol = 0;
    for (int i = 0; i < 100000; i++) {
        simhadol_taken taken = take_reason(a, symbol);
        CHECK(is(take(b, symbol), taken.answer, 0));
        CHECK(memcmp(a, b, LENGTH) == 0);
        CHECK(taken.reason <= EARLY);
        counts[taken.reason <= EARLY ? taken.reason : NOTHING]++;
        /* mostly P1's symbols, and now and then any number, some of them too large */
        symbol = i % 53 == 0 ? (uint16_t)(i * 7) % 1100 : i % 12 == 11 ? 0x000 : 0x100;
    }
    for (int reason = NOTHING; reason <= EARLY; reason++)
        CHECK(counts[reason] > 10);
}

const struct test reason_tests[] = {
    {"the reasons by number, and how a reply and a reason are laid", numbers_and_layout},
    {"the twelfth symbol: P1 and P2 accepted, P3 failed by its CRC", twelfth_symbol},
    {"a collection of 1 to 11 symbols broken by each marked symbol", broken_by_a_mark},
    {"a collection of 1 to 11 symbols broken by an early even symbol", broken_by_an_even_symbol},
    {"an empty collection can't be broken", nothing_to_break},
    {"a refused symbol has no reason and breaks nothing", refused_symbols},
    {"the reason changes neither answer nor bytes", same_as_take},
    {NULL, NULL},
};
