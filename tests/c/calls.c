/*
 * calls: the library's calls from C. What is expected is worked out by hand from document 01, under the names of its
 * cases, and from document 02, #101 and #104 to #107 (one CRC is crcmod's). The tests are in calls_records.c,
 * calls_ends.c, calls_reasons.c, calls_counts.c, calls_presence.c and calls_upgrades.c. One line for each test, then a
 * count; status 1 if one failed or that could not be printed.
 */
#include "calls.h"
#include <stdio.h>

uint8_t room_a[ROOM], room_b[ROOM];
static bool passed;

void check(bool holds, const char *what, const char *file, int line)
{
    if (!holds)
        printf("%s:%d: not so: %s\n", file, line, what);
    passed = passed && holds;
}

static void reset_both(void)
{
    memset(room_a, GUARD, sizeof room_a);
    memset(room_b, GUARD, sizeof room_b);
    CHECK(is(simhadol_reset(a, LENGTH), 0, 0));
    CHECK(is(simhadol_reset(b, LENGTH), 0, 0));
}

static void check_guards(void)
{
    CHECK(all(room_a, SIDE, GUARD) && all(a + LENGTH, SIDE + 1, GUARD));
    CHECK(all(room_b, SIDE, GUARD) && all(b + LENGTH, SIDE + 1, GUARD));
}

int main(void)
{
    const struct test *const groups[] = {record_tests, end_tests,      reason_tests,
                                         count_tests,  presence_tests, upgrade_tests};
    size_t count = 0, failed = 0;
    for (size_t i = 0; i < sizeof groups / sizeof *groups; i++)
        for (const struct test *test = groups[i]; test->name != NULL; test++) {
            passed = true;
            reset_both();
            test->run();
            check_guards();
            printf("%s  %s\n", passed ? "ok    " : "FAILED", test->name);
            count++;
            failed += !passed;
        }
    printf("%zu tests, %zu failed\n", count, failed);
    if (fflush(stdout) != 0 || ferror(stdout)) {
        fprintf(stderr, "calls: standard output could not be written\n");
        return 1;
    }
    return failed > 0;
}
