/* The CRC by slicing by 8: eight bytes are looked up side by side, each in a table of its own. */
enum { SLICE = 8 };

#include "tables.h"

static uint16_t crc_byte(uint16_t crc, uint8_t byte)
{
    return (uint16_t)(crc << 8 ^ table[0][crc >> 8 ^ byte]);
}

static uint16_t crc_words(uint16_t start, const uint16_t *message, size_t words)
{
    uint16_t crc = start;
    for (; words >= SLICE / 2; words -= SLICE / 2, message += SLICE / 2) {
        uint16_t first = (uint16_t)(message[0] ^ crc);
        crc = table[7][first >> 8] ^ table[6][first & 255] ^ table[5][message[1] >> 8] ^ table[4][message[1] & 255]
            ^ table[3][message[2] >> 8] ^ table[2][message[2] & 255] ^ table[1][message[3] >> 8]
            ^ table[0][message[3] & 255];
    }
    for (size_t i = 0; i < words; i++) {
        crc = crc_byte(crc, (uint8_t)(message[i] >> 8));
        crc = crc_byte(crc, (uint8_t)message[i]);
    }
    return crc;
}

static uint16_t crc_bytes(uint16_t start, const uint8_t *message, size_t bytes)
{
    uint16_t crc = start;
    for (; bytes >= SLICE; bytes -= SLICE, message += SLICE) {
        crc = table[7][message[0] ^ crc >> 8] ^ table[6][message[1] ^ (crc & 255)] ^ table[5][message[2]]
            ^ table[4][message[3]] ^ table[3][message[4]] ^ table[2][message[5]] ^ table[1][message[6]]
            ^ table[0][message[7]];
    }
    for (size_t i = 0; i < bytes; i++) {
        crc = crc_byte(crc, message[i]);
    }
    return crc;
}
