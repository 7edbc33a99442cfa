/*
 * Document 01's cases, under their names, on records: what is sent, taken, read and written.
 */
#include "calls.h"

/* Delays 0: both send, then both take. */
static void slots(int count)
{
    while (count-- > 0) {
        simhadol_reply from_a = send(a), from_b = send(b);
        CHECK(from_a.answer == 0 && from_b.answer == 0);
        CHECK(is(take(a, from_b.value), 0, 0));
        CHECK(is(take(b, from_a.value), 0, 0));
    }
}

static void p1_first_frame(void)
{
    CHECK(is(send(a), 0, 0x000));
    for (int i = 1; i < 12; i++) {
        CHECK(a[POSITION] == i);
        CHECK(is(send(a), 0, 0x100));
    }
    CHECK(a[POSITION] == 0);
}

static void p7_message_leaves(void)
{
    static const uint16_t frame[] = {0x000, 0x085, 0x111, 0x122, 0x100, 0x100,
                                     0x100, 0x100, 0x100, 0x100, 0x19C, 0x054};
    CHECK(is(write(a, 2309, 0x2211), 0, 0));
    CHECK(a[BYTES] == 0x11 && a[BYTES + 1] == 0x22);
    CHECK(is(write(a, 2308, 0x8500), 0, 0));
    CHECK(a[PENDING] == 1 && a[NUMBER] == 5);
    CHECK(is(read(a, 2308), 0, 0x8500));
    CHECK(is(send(a), 0, frame[0]));
    CHECK(is(read(a, 2308), 0, 0x4500));
    CHECK(a[PENDING] == 0 && a[REGISTER_TOGGLE] == 1 && a[READY] == 0);
    for (size_t i = 0; i < 12; i++)
        CHECK(symbol_at(a, TX, i) == frame[i]);
    for (int i = 1; i < 12; i++)
        CHECK(is(send(a), 0, frame[i]));
}

static void p8_arrives_p9_second(void)
{
    write(a, 2309, 0x2211);
    write(a, 2308, 0x8500);
    slots(11);
    CHECK(is(read(b, 2313), 0, 0x0000));
    slots(1);
    CHECK(is(read(b, 2313), 0, 0x8500));
    CHECK(is(read(b, 2314), 0, 0x2211));
    slots(12);
    CHECK(is(read(a, 2308), 0, 0x4500));
    slots(1);
    CHECK(is(read(a, 2308), 0, 0x6500));
    CHECK(is(read(a, 2308), 0, 0x4500));

    CHECK(is(write(a, 2308, 0x8500), 0, 0));
    slots(11);
    CHECK(is(send(a), 0, 0x000));
    CHECK(is(send(a), 0, 0x1C5));
}

static void p10_blocked(void)
{
    write(a, 2309, 0x2211);
    write(a, 2308, 0x8500);
    CHECK(is(write(a, 2308, 0x8600), 4, 0));
    CHECK(is(read(a, 2308), 0, 0x8500));
    CHECK(is(write(a, 2308, 0x0004), 0, 0));
    CHECK(is(read(a, 2308), 0, 0x8504));
}

static void p11_largest_symbol(void)
{
    CHECK(is(take(a, 1023), 0, 0));
    CHECK(is(take(a, 1024), 5, 0));
    CHECK(is(take(a, 65535), 5, 0));
}

static void first_and_last_register(void)
{
    CHECK(is(read(a, 2307), 2, 0) && is(read(a, 2318), 2, 0));
    CHECK(is(read(a, 2308), 0, 0) && is(read(a, 2317), 0, 0));
    CHECK(is(write(a, 2307, 0), 2, 0) && is(write(a, 2318, 0), 2, 0));
    CHECK(is(write(a, 2312, 0), 0, 0) && is(write(a, 2313, 0), 3, 0) && is(write(a, 2317, 0), 3, 0));
}

static void healths(void)
{
    CHECK(is(set_health(a, 3), 0, 0));
    CHECK(a[HEALTH] == 3);
    CHECK(is(set_health(a, 4), 6, 0));
    CHECK(is(set_health(a, 65535), 6, 0));
    CHECK(a[HEALTH] == 3);
    /* two ones, so symbol 0 is even as it is */
    CHECK(is(send(a), 0, 0x003));
}

/* The last frame had Valid 0 and Toggle 1, so the next symbol that is not refused settles. */
static void refused_symbol_settles_nothing(void)
{
    a[TOGGLE] = 1;
    a[ACKNOWLEDGE] = 1;
    CHECK(is(take(a, 1024), 5, 0));
    CHECK(a[EXPECTED_TOGGLE] == 0 && a[ACKNOWLEDGE] == 1);
    CHECK(is(take(a, 1023), 0, 0));
    CHECK(a[EXPECTED_TOGGLE] == 1 && a[ACKNOWLEDGE] == 0);
    CHECK(a[VALID] == 0 && a[TOGGLE] == 1);
}

/* A record copied away and put back goes on as if nothing had been. */
static void copied_and_restored(void)
{
    uint8_t kept[LENGTH];
    write(a, 2309, 0x2211);
    write(a, 2308, 0x8500);
    slots(7);
    memcpy(kept, a, LENGTH);
    memset(a, 0xFF, LENGTH);
    CHECK(is(send(a), 11, 0));
    memcpy(a, kept, LENGTH);
    slots(5);
    CHECK(is(read(b, 2313), 0, 0x8500));
    memcpy(a, b, LENGTH);
    CHECK(is(read(a, 2314), 0, 0x2211));
}

const struct test end_tests[] = {
    {"P1: the first frame", p1_first_frame},
    {"P7: a message leaves", p7_message_leaves},
    {"P8, P9: it arrives and is acknowledged; the second message", p8_arrives_p9_second},
    {"P10: blocked", p10_blocked},
    {"P11: the largest symbol", p11_largest_symbol},
    {"the first and the last register", first_and_last_register},
    {"healths 3 and 4", healths},
    {"a refused symbol settles nothing", refused_symbol_settles_nothing},
    {"a record is copied and restored", copied_and_restored},
    {NULL, NULL},
};
