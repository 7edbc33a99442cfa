/*
 * slots COUNT: so many slots of two records joined with delays 0, with a message now and then, and a sum over what is
 * sent and read. It is what crate `speed` runs on two ends by value: the sums are the same, and tests/speed record
 * counts the instructions of both.
 */
#include "simhadol.h"
#include <stdio.h>
#include <stdlib.h>

#define PERIOD 48 /* slots from one message to the next */

static uint8_t a[SIMHADOL_RECORD_LENGTH];
static uint8_t b[SIMHADOL_RECORD_LENGTH];
static uint64_t sum;

static void add(uint16_t number)
{
    sum = sum % 4294967296 * 31 + number;
}

/* The host at a writes a message, made of a number. */
static void report(uint16_t number)
{
    simhadol_write(a, sizeof a, 2309, number);
    simhadol_write(a, sizeof a, 2308, (uint16_t)(number % 16 * 256 + 32768));
}

/* The host at b reads what has come, and empties the receive register. */
static void empty(void)
{
    add(simhadol_read(b, sizeof b, 2313).value);
    add(simhadol_read(b, sizeof b, 2317).value);
}

static void slot(void)
{
    uint16_t from_a = simhadol_send(a, sizeof a).value;
    uint16_t from_b = simhadol_send(b, sizeof b).value;
    simhadol_take(a, sizeof a, from_b);
    simhadol_take(b, sizeof b, from_a);
    add(from_a);
    add(from_b);
}

int main(int words, char **word)
{
    char *end = NULL;
    unsigned long count = words == 2 ? strtoul(word[1], &end, 10) : 0;
    if (words != 2 || *word[1] < '0' || *word[1] > '9' || *end != '\0' || count > UINT32_MAX) {
        fprintf(stderr, "slots COUNT: a decimal number of slots, at most 4294967295\n");
        return 2;
    }
    simhadol_reset(a, sizeof a);
    simhadol_reset(b, sizeof b);
    for (; count > 0; count--) {
        if (count % PERIOD == 0) {
            report((uint16_t)(count % 65536));
            empty();
        }
        slot();
    }
    printf("%llu\n", (unsigned long long)sum);
    if (fflush(stdout) != 0 || ferror(stdout)) {
        fprintf(stderr, "slots: standard output could not be written\n");
        return 1;
    }
    return 0;
}
