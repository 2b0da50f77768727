#include "inputs.h"

#include <string.h>

/* xorshift, 64 bits, from a fixed start */
uint32_t below(uint32_t bound)
{
    static uint64_t state = 88172645463325252u;
    state ^= state << 13;
    state ^= state >> 7;
    state ^= state << 17;
    return (uint32_t)((state >> 33) % bound);
}

void fill(uint16_t *words, size_t count, uint16_t sync)
{
    for (size_t i = 0; i < count; i++) {
        do {
            words[i] = (uint16_t)below(65536);
        } while (words[i] == sync);
    }
}

void flip(uint16_t *words, size_t bit)
{
    words[bit / 16] ^= (uint16_t)(1u << bit % 16);
}

uint16_t slow_crc(uint16_t start, const uint8_t *message, size_t bytes)
{
    uint32_t crc = start;
    for (size_t i = 0; i < bytes; i++) {
        crc ^= (uint32_t)message[i] << 8;
        for (int move = 0; move < 8; move++) {
            crc = crc << 1 ^ (crc & 0x8000 ? 0x11021 : 0);
        }
    }
    return (uint16_t)crc;
}

void put_parity(uint16_t *unit, size_t data_words)
{
    memset(unit, 0, 8 * sizeof *unit);
    for (size_t i = 0; i < data_words; i++) {
        for (size_t bit = 0; bit < 16; bit++) {
            if (unit[8 + i] >> bit & 1) {
                size_t row = i / 4;
                unit[row / 16] ^= (uint16_t)(0x8000 >> row % 16);
                unit[4 + i % 4] ^= (uint16_t)(1u << bit);
            }
        }
    }
}

void put_packet(uint16_t *packet, uint16_t type, uint16_t time)
{
    uint8_t covered[62];
    packet[0] = type;
    packet[2] = time;
    for (size_t i = 3; i < 32; i++) {
        packet[i] = (uint16_t)below(65536);
    }
    for (size_t i = 0, at = 0; i < 32; i++) {
        if (i != 1) {
            covered[at++] = (uint8_t)(packet[i] >> 8);
            covered[at++] = (uint8_t)packet[i];
        }
    }
    packet[1] = slow_crc(0xFFFF, covered, sizeof covered);
}

uint16_t image_header(unsigned camera, size_t size)
{
    return (uint16_t)(camera << 13 | size);
}

uint16_t health_header(size_t size)
{
    return (uint16_t)(0x8000 | size);
}

size_t put_image(uint16_t *at, uint16_t sync, unsigned camera, size_t size)
{
    at[0] = sync;
    at[1] = image_header(camera, size);
    fill(at + 2, size, sync);
    for (size_t unit = 0; unit < size; unit += 264) {
        put_parity(at + 2 + unit, (size - unit < 264 ? size - unit : 264) - 8);
    }
    return 2 + size;
}

size_t put_health(uint16_t *at, uint16_t sync, size_t size, uint16_t type, uint16_t time)
{
    at[0] = sync;
    at[1] = health_header(size);
    for (size_t packet = 0; packet < size; packet += 32) {
        put_packet(at + 2 + packet, type, time++);
    }
    return 2 + size;
}

static void put_word(uint8_t *at, uint64_t word)
{
    at[0] = (uint8_t)(word >> 8);
    at[1] = (uint8_t)word;
}

size_t put_command(uint8_t *at, uint64_t fields, const uint8_t *further, size_t n)
{
    put_word(at, 0x13EE);
    put_word(at + 2, 0xC000 | fields >> 48);
    put_word(at + 4, n + 7);
    put_word(at + 6, fields >> 32);
    put_word(at + 8, fields >> 16);
    put_word(at + 10, fields);
    memcpy(at + 12, further, n);
    put_word(at + 12 + n, slow_crc(0xFFFF, at, 12 + n));
    return 14 + n;
}
