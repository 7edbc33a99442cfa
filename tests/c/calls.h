/*
 * calls.h: what the tests of `calls` share: two records between guards, CHECK, and the calls on a whole record under
 * short names. Each test finds both records just reset.
 */
#ifndef CALLS_H
#define CALLS_H

#include "simhadol.h"
#include <stdbool.h>
#include <string.h>

#define LENGTH 101
/* odd, so that the record has no alignment */
#define SIDE 33
#define ROOM (SIDE + LENGTH + SIDE + 1)
#define GUARD 0xA5

/* places in a record */
enum { VERSION = 2, TX = 3, POSITION = 27, READY = 29, HEALTH = 30, PENDING = 32, REGISTER_TOGGLE = 33, NUMBER = 36,
       BYTES = 38, RX = 46, COUNT = 70, VALID = 74, TOGGLE = 75, EXPECTED_TOGGLE = 78, ACKNOWLEDGE = 79, COUNTS = 91,
       PRESENCE_LEFT = 99 };

/* two records, each with guards on both sides */
extern uint8_t room_a[ROOM], room_b[ROOM];
static uint8_t *const a = room_a + SIDE, *const b = room_b + SIDE;

struct test {
    const char *name;
    void (*run)(void);
};

/* The last of each has no name. */
extern const struct test record_tests[], end_tests[], reason_tests[], count_tests[], presence_tests[], upgrade_tests[];

/* Tells what does not hold, and has the test fail. */
#define CHECK(what) check(what, #what, __FILE__, __LINE__)
void check(bool holds, const char *what, const char *file, int line);

static inline bool all(const uint8_t *bytes, size_t count, uint8_t value)
{
    for (size_t i = 0; i < count; i++)
        if (bytes[i] != value)
            return false;
    return true;
}

static inline bool is(simhadol_reply reply, uint16_t answer, uint16_t value)
{
    return reply.answer == answer && reply.value == value;
}

static inline bool told(simhadol_taken taken, uint16_t answer, uint16_t reason, uint16_t symbols)
{
    return taken.answer == answer && taken.reason == reason && taken.symbols == symbols;
}

static inline bool counted(simhadol_counted counts, uint16_t answer, uint16_t accepted, uint16_t crc, uint16_t marked,
                           uint16_t early)
{
    return counts.answer == answer && counts.accepted == accepted && counts.crc == crc && counts.marked == marked &&
           counts.early == early;
}

static inline simhadol_reply send(uint8_t *record)
{
    return simhadol_send(record, LENGTH);
}

static inline simhadol_reply take(uint8_t *record, uint16_t symbol)
{
    return simhadol_take(record, LENGTH, symbol);
}

static inline simhadol_taken take_reason(uint8_t *record, uint16_t symbol)
{
    return simhadol_take_reason(record, LENGTH, symbol);
}

static inline simhadol_reply read(uint8_t *record, uint16_t number)
{
    return simhadol_read(record, LENGTH, number);
}

static inline simhadol_reply write(uint8_t *record, uint16_t number, uint16_t value)
{
    return simhadol_write(record, LENGTH, number, value);
}

static inline simhadol_reply set_health(uint8_t *record, uint16_t health)
{
    return simhadol_set_health(record, LENGTH, health);
}

static inline simhadol_reply present(const uint8_t *record)
{
    return simhadol_present(record, LENGTH);
}

static inline simhadol_counted counts(const uint8_t *record)
{
    return simhadol_counts(record, LENGTH);
}

/* Record b is upgraded into the area a. */
static inline simhadol_reply upgrade(size_t old_length, size_t length)
{
    return simhadol_upgrade(b, old_length, a, length);
}

/* Each call but reset and upgrade gives 11 and 0, other faults in its arguments or not. */
void all_give_11(uint8_t *record, size_t length);

/* The largest value of each byte behind the head, as long as the other of the last two is 0. */
int largest(size_t place);

/* How many more symbols without a frame until presence lapses. */
static inline unsigned left(const uint8_t *record)
{
    return record[PRESENCE_LEFT] * 256u + record[PRESENCE_LEFT + 1];
}

/* Symbol n of the twelve that stand at a place of a record. */
static inline uint16_t symbol_at(const uint8_t *record, size_t place, size_t n)
{
    return (uint16_t)(record[place + 2 * n] << 8 | record[place + 2 * n + 1]);
}

#endif
