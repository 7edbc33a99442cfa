/* Ways to work the CRC of ten bytes. Each gives the same number; bit 0 is S15. */
#include <stdbool.h>
#include <stdint.h>

#define GENERATOR 0xA001u

uint16_t bit_by_bit(const uint8_t *bytes);
uint16_t byte_table(const uint8_t *bytes);
uint16_t nibble_table(const uint8_t *bytes);
uint16_t byte_parity(const uint8_t *bytes);
uint16_t five_words(const uint8_t *bytes);
uint16_t three_words(const uint8_t *bytes);

/* the tables of two of them, which main fills */
extern uint16_t of_byte[256];
extern uint16_t of_nibble[16];
