/* searches KIND COUNT: the proved search of captures of 32,768 symbols, of ten seeds in turn, or the frame check of
 * good frames, COUNT times, and a sum over the results. It is for counting the instructions of rt's own archive, which
 * is for x86-64, in an emulator, where no Rust for x86-64 is at hand. The captures are those of src/captures.rs. */
#include <stddef.h>
#include <stdint.h>
#include <stdio.h>
#include <stdlib.h>
#include <string.h>

enum { LENGTH = 32768, SEEDS = 10, SYMBOLS = 12, FRAMES = 64 };

/* of crate speed; a result of eight bits is cut here, as what stands above it may be anything */
void simhadol_build(const uint8_t *bytes, uint16_t *symbols);
uint32_t simhadol_check(const uint16_t *list, size_t length);
size_t simhadol_place(const uint16_t *list, size_t length);

static uint64_t state;

static void start(uint64_t seed)
{
    state = seed * 0x9E3779B97F4A7C15 | 1;
}

static uint16_t below(uint16_t limit)
{
    state ^= state << 13;
    state ^= state >> 7;
    state ^= state << 17;
    return (uint16_t)((state >> 32) % limit);
}

static void frame(uint16_t *symbols)
{
    uint8_t bytes[10];
    for (int i = 0; i < 10; i++)
        bytes[i] = (uint8_t)below(256);
    simhadol_build(bytes, symbols);
}

static uint16_t odd(void)
{
    uint16_t data = below(256);
    return (uint16_t)(__builtin_parity(data) ? data : data | 256);
}

/* one good frame, at the very end; limit 0 is an odd symbol and then a frame with a wrong CRC, over and over */
static void capture(uint16_t *list, uint64_t seed, uint16_t limit)
{
    size_t at = 0;
    start(seed);
    while (at < LENGTH - SYMBOLS) {
        list[at++] = limit > 0 ? below(limit) : odd();
        if (limit == 0) {
            frame(list + at);
            at += SYMBOLS;
            list[at - 1] ^= 3;
        }
    }
    frame(list + LENGTH - SYMBOLS);
}

int main(int count, char **words)
{
    static uint16_t lists[SEEDS][LENGTH + SYMBOLS], frames[FRAMES][SYMBOLS];
    static const char *const kinds[] = {"odd-then-wrong-CRC-frame", "below-512", "below-1024", "check"};
    size_t kind = 0, turns = count == 3 ? strtoul(words[2], NULL, 10) : 0;
    uint64_t sum = 0;
    while (turns > 0 && kind < 4 && strcmp(words[1], kinds[kind]) != 0)
        kind++;
    if (turns == 0 || kind == 4) {
        fputs("searches odd-then-wrong-CRC-frame|below-512|below-1024|check COUNT\n", stderr);
        return 2;
    }
    start(1);
    for (int i = 0; i < FRAMES; i++)
        frame(frames[i]);
    for (int i = 0; i < SEEDS && kind < 3; i++)
        capture(lists[i], (uint64_t)i + 1, (uint16_t)(512 * kind));
    for (size_t i = 0; i < turns; i++)
        sum = sum * 31 + (kind < 3 ? simhadol_place(lists[i % SEEDS], LENGTH)
                                   : (uint8_t)simhadol_check(frames[i % FRAMES], SYMBOLS));
    printf("%llu\n", (unsigned long long)sum);
    return 0;
}
