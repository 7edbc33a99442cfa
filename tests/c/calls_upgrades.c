/*
 * Records of versions 1 and 2 made ones of version 3: document 02, #106 and #107. The old one, in b, is only read, and
 * an area that is not filled keeps its bytes.
 */
#include "calls.h"

/* An old version: the length of its records, and the counts that it ends with, in bytes. */
struct version {
    uint8_t version;
    size_t length, counts;
};
static const struct version versions[] = {{1, 92, 0}, {2, 100, 8}};

/* `present` of the old versions: what has come behind it since stands one byte earlier now */
#define OLD_PRESENT 71

/* The old record of an end just reset, and no record in the area. */
static void lay_old(const struct version *old)
{
    memset(b, GUARD, LENGTH);
    memset(b, 0, old->length);
    b[1] = (uint8_t)old->length, b[2] = old->version, b[READY] = 1;
    memset(a, 0xFF, LENGTH);
}

static void is_refused(size_t old_length, size_t length)
{
    uint8_t before[sizeof room_a], old[sizeof room_b];
    memcpy(before, room_a, sizeof before);
    memcpy(old, room_b, sizeof old);
    CHECK(is(upgrade(old_length, length), 11, 0));
    CHECK(memcmp(before, room_a, sizeof before) == 0 && memcmp(old, room_b, sizeof old) == 0);
}

/* The bytes of the end come over one by one, behind another head, and what version 3 has more is 0. */
static void is_upgraded(const struct version *old)
{
    static const uint8_t head[] = {0, 101, 3};
    uint8_t before[sizeof room_b];
    memcpy(before, room_b, sizeof before);
    CHECK(is(upgrade(old->length, LENGTH), 0, 0));
    CHECK(memcmp(a, head, sizeof head) == 0);
    CHECK(memcmp(a + TX, b + TX, OLD_PRESENT - TX) == 0);
    CHECK(memcmp(a + OLD_PRESENT, b + OLD_PRESENT + 1, old->length - OLD_PRESENT - 1) == 0);
    CHECK(all(a + old->length - 1, LENGTH - old->length + 1, 0));
    CHECK(is(present(a), 0, 0));
    CHECK(memcmp(before, room_b, sizeof before) == 0);
}

/* Of an old record's byte, as that of the same field now. */
static int largest_of_old(size_t place)
{
    if (place == OLD_PRESENT)
        return 1;
    return largest(place < OLD_PRESENT ? place : place - 1);
}

/* It becomes what reset writes. */
static void just_reset(const struct version *old)
{
    uint8_t wanted[LENGTH];
    CHECK(is(simhadol_reset(a, LENGTH), 0, 0));
    memcpy(wanted, a, LENGTH);
    for (int before = 0; before < 256; before++) {
        lay_old(old);
        memset(a, before, LENGTH);
        b[OLD_PRESENT] = (uint8_t)(before % 2);
        is_upgraded(old);
        CHECK(memcmp(a, wanted, LENGTH) == 0);
    }
}

static void every_byte_comes_over(const struct version *old)
{
    lay_old(old);
    for (size_t place = TX; place < old->length; place++)
        b[place] = (uint8_t)largest_of_old(place);
    is_upgraded(old);
    for (size_t place = TX; place < old->length; place++)
        b[place] = (uint8_t)(place * 37 % (size_t)(largest_of_old(place) + 1));
    is_upgraded(old);
}

static void bytes_out_of_range(const struct version *old)
{
    lay_old(old);
    for (size_t place = TX; place < old->length; place++) {
        uint8_t before = b[place];
        for (int value = largest_of_old(place) + 1; value < 256; value++) {
            b[place] = (uint8_t)value;
            is_refused(old->length, LENGTH);
        }
        b[place] = before;
    }
    is_upgraded(old);
}

static void other_heads(const struct version *old)
{
    lay_old(old);
    for (size_t place = 0; place <= VERSION; place++) {
        uint8_t right = b[place];
        for (int value = 0; value < 256; value++) {
            b[place] = (uint8_t)value;
            if (value != right)
                is_refused(old->length, LENGTH);
        }
        b[place] = right;
    }
    is_upgraded(old);
}

static void other_lengths(const struct version *old)
{
    lay_old(old);
    for (size_t old_length = 0; old_length <= LENGTH + SIDE; old_length++)
        for (size_t length = 0; length <= LENGTH + SIDE; length++)
            if (old_length != old->length || length != LENGTH)
                is_refused(old_length, length);
    is_upgraded(old);
}

static void no_bytes(const struct version *old)
{
    uint8_t before[LENGTH];
    lay_old(old);
    CHECK(is(simhadol_upgrade(NULL, 0, NULL, 0), 11, 0));
    CHECK(is(simhadol_upgrade(b, old->length, NULL, 0), 11, 0));
    memcpy(before, a, LENGTH);
    CHECK(is(simhadol_upgrade(NULL, 0, a, LENGTH), 11, 0));
    CHECK(memcmp(before, a, LENGTH) == 0);
}

/* Version 3, with its own length or cut, with its own head or one that tells of the old version in part. */
static void version_3_is_none(const struct version *old)
{
    const uint8_t length = (uint8_t)old->length;
    const uint8_t heads[][3] = {{0, 101, 3}, {0, 101, old->version}, {0, length, 3}, {0, length, old->version}};
    CHECK(is(simhadol_reset(b, LENGTH), 0, 0));
    memset(a, 0xFF, LENGTH);
    for (size_t i = 0; i < sizeof heads / sizeof *heads; i++) {
        memcpy(b, heads[i], sizeof heads[i]);
        is_refused(LENGTH, LENGTH);
        /* the last is the whole head of the old version, and of an end just reset so is the rest of it */
        if (i < 3)
            is_refused(old->length, LENGTH);
        else
            is_upgraded(old);
    }
}

/* In an area of its own length or of version 3's. Reset looks at the length alone. */
static void old_elsewhere(const struct version *old)
{
    uint8_t before[sizeof room_b];
    lay_old(old);
    memset(b + old->length, 0, LENGTH - old->length);
    memcpy(before, room_b, sizeof before);
    all_give_11(b, old->length);
    all_give_11(b, LENGTH);
    CHECK(is(simhadol_reset(b, old->length), 11, 0));
    CHECK(memcmp(before, room_b, sizeof before) == 0);
    CHECK(is(simhadol_reset(b, LENGTH), 0, 0));
    CHECK(is(present(b), 0, 0));
}

/* P7's message waits, and of a frame the last symbol is missing. `present` was 1, and says nothing now. */
static void goes_on(const struct version *old)
{
    static const uint16_t sent[] = {0x000, 0x085, 0x111, 0x122};
    static const uint8_t counted_before[] = {0x00, 0xFE, 0x01, 0xFF, 0xFF, 0xFE, 0xFF, 0xFF};
    const bool goes_on_counting = old->counts > 0;
    lay_old(old);
    b[BYTES] = 0x11, b[BYTES + 1] = 0x22, b[PENDING] = 1, b[NUMBER] = 5;
    b[COUNT] = 11;
    for (size_t i = 1; i < 11; i++)
        b[RX + 2 * i] = 1;
    b[OLD_PRESENT] = 1;
    memcpy(b + old->length - old->counts, counted_before, old->counts);
    is_upgraded(old);
    CHECK(is(read(a, 2308), 0, 0x8500));
    for (size_t i = 0; i < 4; i++)
        CHECK(is(send(a), 0, sent[i]));
    CHECK(told(take_reason(a, 0x100), 0, 1, 0));
    CHECK(is(present(a), 0, 1) && left(a) == 768);
    CHECK(goes_on_counting ? counted(counts(a), 0, 255, 511, 65534, 65535) : counted(counts(a), 0, 1, 0, 0, 0));
    /* once more from the same: as it was, and a broken collection is no frame */
    is_upgraded(old);
    CHECK(told(take_reason(a, 0x300), 0, 3, 11));
    CHECK(is(present(a), 0, 0) && left(a) == 0);
    CHECK(goes_on_counting ? counted(counts(a), 0, 254, 511, 65535, 65535) : counted(counts(a), 0, 0, 0, 1, 0));
}

#define OF_BOTH(test) static void test##_of_both(void) { test(&versions[0]), test(&versions[1]); }
OF_BOTH(just_reset)
OF_BOTH(every_byte_comes_over)
OF_BOTH(bytes_out_of_range)
OF_BOTH(other_heads)
OF_BOTH(other_lengths)
OF_BOTH(no_bytes)
OF_BOTH(version_3_is_none)
OF_BOTH(old_elsewhere)
OF_BOTH(goes_on)

/* Each with both versions. */
const struct test upgrade_tests[] = {
    {"an end just reset becomes what reset writes", just_reset_of_both},
    {"every byte of the end comes over", every_byte_comes_over_of_both},
    {"an old record with a byte above its largest value: 11", bytes_out_of_range_of_both},
    {"an old record with other length bytes or another version: 11", other_heads_of_both},
    {"other lengths of either area: 11, nothing written", other_lengths_of_both},
    {"NULL with length 0, either or both: 11", no_bytes_of_both},
    {"a record of version 3 is no old one: 11", version_3_is_none_of_both},
    {"an old record is refused by every other call", old_elsewhere_of_both},
    {"an upgraded end goes on, absent, with its counts if it has any", goes_on_of_both},
    {NULL, NULL},
};
