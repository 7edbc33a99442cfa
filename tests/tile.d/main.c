/* main WAY: works CRCs of random bytes in one way and prints how many. It fails if one differs from what is expected, or
   that from the published check value. */
#include "ways.h"
#include <stdio.h>
#include <string.h>

#define TURNS 64

uint16_t of_byte[256];
uint16_t of_nibble[16];

static const struct {
    const char *name;
    uint16_t (*crc)(const uint8_t *bytes);
} ways[] = {
    {"bit_by_bit", bit_by_bit},   {"byte_table", byte_table}, {"nibble_table", nibble_table},
    {"byte_parity", byte_parity}, {"five_words", five_words}, {"three_words", three_words},
};

static uint16_t shifted(uint16_t crc, int bits)
{
    while (bits-- > 0)
        crc = crc & 1 ? crc >> 1 ^ GENERATOR : crc >> 1;
    return crc;
}

static uint16_t expected(const uint8_t *bytes)
{
    uint16_t crc = 0;
    for (int i = 0; i < 10; i++)
        crc = shifted(crc ^ bytes[i], 8);
    return crc;
}

int main(int count, char **words)
{
    for (int byte = 0; byte < 256; byte++)
        of_byte[byte] = shifted(byte, 8);
    for (int nibble = 0; nibble < 16; nibble++)
        of_nibble[nibble] = shifted(nibble, 4);

    /* CRC-16/ARC of the text 123456789; a zero byte before it changes nothing */
    if (expected((const uint8_t *)"\0" "123456789") != 0xBB3D)
        return 1;
    for (unsigned way = 0; count == 2 && way < sizeof ways / sizeof *ways; way++) {
        if (strcmp(words[1], ways[way].name) != 0)
            continue;
        uint32_t random = 1;
        for (int turn = 0; turn < TURNS; turn++) {
            uint8_t bytes[10];
            for (int i = 0; i < 10; i++)
                bytes[i] = (random = random * 1664525 + 1013904223) >> 24;
            if (ways[way].crc(bytes) != expected(bytes))
                return 1;
        }
        printf("%d\n", TURNS);
        return 0;
    }
    fprintf(stderr, "main WAY\n");
    return 2;
}
