/* The ways to work the CRC of ten bytes that were weighed for a small controller. `three_words` is
   crates/frame/src/words.rt in C; the proved code itself is compiled for x86-64 alone. */
#include "ways.h"

/* x^15 + x + 1; the generator is x + 1 times this */
#define FACTOR 0xC001u

static bool odd(uint32_t word)
{
    word ^= word >> 16;
    word ^= word >> 8;
    word ^= word >> 4;
    word ^= word >> 2;
    word ^= word >> 1;
    return word & 1;
}

uint16_t bit_by_bit(const uint8_t *bytes)
{
    uint16_t crc = 0;
    for (int i = 0; i < 10; i++) {
        crc ^= bytes[i];
        for (int bit = 0; bit < 8; bit++)
            crc = crc & 1 ? crc >> 1 ^ GENERATOR : crc >> 1;
    }
    return crc;
}

uint16_t byte_table(const uint8_t *bytes)
{
    uint16_t crc = 0;
    for (int i = 0; i < 10; i++)
        crc = crc >> 8 ^ of_byte[(crc ^ bytes[i]) & 255];
    return crc;
}

uint16_t nibble_table(const uint8_t *bytes)
{
    uint16_t crc = 0;
    for (int i = 0; i < 10; i++) {
        crc ^= bytes[i];
        crc = crc >> 4 ^ of_nibble[crc & 15];
        crc = crc >> 4 ^ of_nibble[crc & 15];
    }
    return crc;
}

uint16_t byte_parity(const uint8_t *bytes)
{
    uint32_t crc = 0;
    for (int i = 0; i < 10; i++) {
        uint32_t x = (crc ^ bytes[i]) & 255;
        crc = crc >> 8 ^ x << 6 ^ x << 7 ^ (odd(x) ? FACTOR : 0);
    }
    return crc;
}

/* no number of more than 25 bits; by the factor x^16 is x^2 + x */
uint16_t five_words(const uint8_t *bytes)
{
    uint32_t sum = 0, parity = 0;
    for (int i = 0; i < 10; i += 2) {
        uint32_t word = bytes[i] | bytes[i + 1] << 8;
        parity ^= word;
        sum = sum ^ sum << 1 ^ word << i;
    }
    sum ^= sum << 1;
    uint32_t eleven = sum % 2048;
    uint32_t remainder = eleven << 4 ^ eleven << 5 ^ sum >> 11 << 1;
    return odd(parity ^ remainder) ? remainder ^ FACTOR : remainder;
}

uint16_t three_words(const uint8_t *bytes)
{
    uint32_t first = bytes[0] | bytes[1] << 8 | bytes[2] << 16 | (uint32_t)bytes[3] << 24;
    uint32_t second = bytes[4] | bytes[5] << 8 | bytes[6] << 16 | (uint32_t)bytes[7] << 24;
    uint32_t third = bytes[8] | bytes[9] << 8;
    uint64_t a = first, b = second, c = third;
    uint64_t forty = a ^ a << 4 ^ b << 4 ^ b << 6 ^ c << 22 ^ c << 23;
    uint64_t ten = forty % 1024;
    uint64_t thirty = forty >> 10 ^ ten << 20 ^ ten << 18;
    uint64_t fifteen = thirty % 32768;
    uint32_t remainder = fifteen ^ fifteen << 1 ^ thirty >> 15 << 1;
    return odd(first ^ second ^ third ^ remainder) ? remainder ^ FACTOR : remainder;
}
