/*
 * driver HOW: makes calls on two areas, a and b, as standard input asks, and writes what each gives.
 *
 *   X area HEX            X is a or b: its area is laid anew, with these bytes
 *   X area empty          no bytes, at a pointer that is not NULL
 *   X area null           no bytes, at NULL, as both are at the start
 *   X seal                between pages, the area can't be written until the next call on it is done
 *   X reset, X send, X take N, X read N, X write N V, X health N, X present
 *                         prints the answer, the value and the area's bytes after the call, - where it has none
 *   X reason N            takes: prints the answer, the reason, the symbols of a broken collection and the bytes
 *   X counts              prints the answer, the four counts and the bytes
 *   X upgrade Y           Y is the other one, with the old record: prints the answer, the value, the bytes of X and
 *                         then those of Y
 *   length                prints the macro SIMHADOL_RECORD_LENGTH, what simhadol_record_length gives, and the macros
 *                         SIMHADOL_RECORD_LENGTH_1 and SIMHADOL_RECORD_LENGTH_2
 *
 * Numbers are decimal, bytes hex. HOW an area is laid:
 *
 *   guards                with guard bytes on both sides, at an odd address
 *   heap                  as a block of exactly its size, so that valgrind sees each byte beyond it
 *   page-before           right behind a page that can't be read or written
 *   page-after            right before such a page
 *
 * Between pages, an area that a call only reads is sealed for it.
 *
 * Guard bytes fill what is left beside the area, and are looked at after each call. A call that harms one is named on
 * standard error, with status 1. Input that can't be read is named there too, with status 2.
 */
#include "driver.h"
#include "simhadol.h"
#include <stdbool.h>
#include <stdio.h>
#include <stdlib.h>
#include <string.h>

#define LONGEST_AREA 1024
#define LONGEST_LINE (2 * LONGEST_AREA + 64)
#define MOST_WORDS 4

static const char *const hows[] = {"guards", "heap", "page-before", "page-after"};
static unsigned long line_number;

void stop(int status, const char *why)
{
    fflush(stdout);
    fprintf(stderr, "driver: line %lu: %s\n", line_number, why);
    exit(status);
}

static void malformed(const char *why)
{
    stop(2, why);
}

static int digit(char letter)
{
    static const char digits[] = "0123456789ABCDEF";
    const char *found = strchr(digits, letter);
    if (found == NULL)
        malformed("the digits of a byte are 0 to 9 and A to F");
    return (int)(found - digits);
}

static void lay_hex(struct area *area, const char *hex)
{
    uint8_t bytes[LONGEST_AREA];
    size_t length = strlen(hex) / 2;
    if (strlen(hex) % 2 != 0 || length > LONGEST_AREA)
        malformed("bytes are pairs of digits, and at most 1024");
    for (size_t i = 0; i < length; i++)
        bytes[i] = (uint8_t)(digit(hex[2 * i]) << 4 | digit(hex[2 * i + 1]));
    lay(area, bytes, length);
}

static void lay_as_told(struct area *area, const char *what)
{
    if (strcmp(what, "null") == 0)
        lift(area);
    else if (strcmp(what, "empty") == 0)
        lay(area, (const uint8_t *)"", 0);
    else
        lay_hex(area, what);
}

static uint16_t number(const char *word)
{
    char *end;
    unsigned long value = strtoul(word, &end, 10);
    if (word[0] < '0' || word[0] > '9' || *end != '\0' || value > 65535)
        malformed("a number is decimal, 0 to 65535");
    return (uint16_t)value;
}

static void print_numbers(struct given given)
{
    for (size_t i = 0; i < given.count; i++)
        printf("%u ", (unsigned)given.numbers[i]);
}

static void print_bytes(const struct area *area, char behind)
{
    static const char digits[] = "0123456789ABCDEF";
    char hex[2 * LONGEST_AREA + 1] = "-";
    for (size_t i = 0; i < area->length; i++) {
        hex[2 * i] = digits[area->bytes[i] >> 4];
        hex[2 * i + 1] = digits[area->bytes[i] & 15];
    }
    if (area->length > 0)
        hex[2 * area->length] = '\0';
    printf("%s%c", hex, behind);
}

/* What stops the next call by force leaves the lines before it to be read. */
static void before_a_call(void)
{
    if (how != WITH_GUARDS)
        fflush(stdout);
}

static void make_call(struct area *area, size_t count, char **words)
{
    const struct call *call = call_named(words[0]);
    uint16_t numbers[2] = {0, 0};
    if (call == NULL || count != 1 + call->numbers)
        malformed("no such call, or it has too few or too many numbers");
    for (size_t i = 0; i < call->numbers; i++)
        numbers[i] = number(words[1 + i]);
    before_a_call();
    struct given given = call->make(area, numbers);
    seal(area, false);
    check_guards(area);
    print_numbers(given);
    print_bytes(area, '\n');
}

/* The two areas of the call must not overlap. */
static void make_upgrade(struct area *area, struct area *old)
{
    if (area == old)
        malformed("an area is upgraded from the other one");
    before_a_call();
    struct given given = upgrade(old, area);
    seal(area, false);
    seal(old, false);
    check_guards(area);
    check_guards(old);
    print_numbers(given);
    print_bytes(area, ' ');
    print_bytes(old, '\n');
}

/* NULL where the word names no area. */
static struct area *area_named(struct area areas[2], const char *word)
{
    bool is_a_or_b = strcmp(word, "a") == 0 || strcmp(word, "b") == 0;
    return is_a_or_b ? &areas[word[0] == 'b'] : NULL;
}

static void obey(struct area areas[2], size_t count, char **words)
{
    if (count == 1 && strcmp(words[0], "length") == 0) {
        printf("%d %zu %d %d\n", SIMHADOL_RECORD_LENGTH, simhadol_record_length(), SIMHADOL_RECORD_LENGTH_1,
               SIMHADOL_RECORD_LENGTH_2);
        return;
    }
    struct area *area = count < 2 ? NULL : area_named(areas, words[0]);
    if (area == NULL)
        malformed("a line is length, or begins with a or b and what is to be done");
    struct area *old = count == 3 ? area_named(areas, words[2]) : NULL;
    if (count == 3 && strcmp(words[1], "area") == 0)
        lay_as_told(area, words[2]);
    else if (count == 2 && strcmp(words[1], "seal") == 0)
        seal(area, true);
    else if (old != NULL && strcmp(words[1], "upgrade") == 0)
        make_upgrade(area, old);
    else
        make_call(area, count - 1, words + 1);
}

/* Gives how many words there are, at most MOST_WORDS of them stored. */
static size_t split(char *line, char *words[MOST_WORDS])
{
    size_t count = 0;
    for (char *word = strtok(line, " "); word != NULL; word = strtok(NULL, " ")) {
        if (count < MOST_WORDS)
            words[count] = word;
        count++;
    }
    return count;
}

/* Gives false at the end of the input. A last line without its newline was cut short. */
static bool get_line(char line[LONGEST_LINE])
{
    if (fgets(line, LONGEST_LINE, stdin) == NULL)
        return false;
    line_number++;
    size_t length = strlen(line);
    if (length == 0 || line[length - 1] != '\n')
        malformed("the line is too long, has a zero byte or does not end");
    line[length - 1] = '\0';
    return true;
}

static bool understood(int count, char **arguments)
{
    for (size_t i = 0; count == 2 && i < sizeof hows / sizeof *hows; i++)
        if (strcmp(arguments[1], hows[i]) == 0) {
            how = (enum how)i;
            return true;
        }
    return false;
}

int main(int count, char **arguments)
{
    if (!understood(count, arguments)) {
        fprintf(stderr, "driver guards | heap | page-before | page-after\n");
        return 2;
    }
    struct area areas[2] = {{NULL, 0, NULL, 0}, {NULL, 0, NULL, 0}};
    char line[LONGEST_LINE], *words[MOST_WORDS];
    while (get_line(line)) {
        size_t words_there = split(line, words);
        obey(areas, words_there, words);
    }
    lift(&areas[0]);
    lift(&areas[1]);
    if (ferror(stdin) || fflush(stdout) != 0)
        stop(2, "input or output failed");
    return 0;
}
