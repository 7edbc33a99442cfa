/*
 * driver.h: the areas that `driver` makes calls on, each between guard bytes or pages, and the calls.
 */
#ifndef DRIVER_H
#define DRIVER_H

#include <stdbool.h>
#include <stddef.h>
#include <stdint.h>

/* how an area is laid, as driver.c says */
enum how { WITH_GUARDS, ON_HEAP, PAGE_BEFORE, PAGE_AFTER };
extern enum how how;

/* A block that holds the area; the rest of it is guard bytes. All is 0 where there is none. */
struct area {
    uint8_t *block;
    size_t block_length;
    uint8_t *bytes;
    size_t length;
};

void lay(struct area *area, const uint8_t *bytes, size_t length);
void lift(struct area *area);

/* Stops with status 1 where a guard byte was written. */
void check_guards(const struct area *area);

/* Between pages, sees to it that the area can't be written, or can again. */
void seal(struct area *area, bool sealed);

/* What a call gives, in its order. */
struct given {
    size_t count;
    uint16_t numbers[5];
};

/* A call by its name, and how many numbers it is given. An area that it only reads it leaves sealed. */
struct call {
    const char *name;
    size_t numbers;
    struct given (*make)(struct area *area, const uint16_t *numbers);
};

/* NULL where there is no such call. */
const struct call *call_named(const char *name);

/* Leaves the old one sealed. */
struct given upgrade(struct area *old, struct area *area);

/* Names the line of the input, and ends the program. */
void stop(int status, const char *why);

#endif
