/* Inputs, the same in every run, and made by the rules bit by bit: no implementation that is compared makes its own. */
#ifndef INPUTS_H
#define INPUTS_H

#include <stddef.h>
#include <stdint.h>

/* the next number, below the bound */
uint32_t below(uint32_t bound);

/* any words but the sync word */
void fill(uint16_t *words, size_t count, uint16_t sync);

void flip(uint16_t *words, size_t bit);

uint16_t slow_crc(uint16_t start, const uint8_t *message, size_t bytes);

/* writes the 8 parity words before the data words that stand behind them */
void put_parity(uint16_t *unit, size_t data_words);

/* a sound packet; the words after the time are any */
void put_packet(uint16_t *packet, uint16_t type, uint16_t time);

uint16_t image_header(unsigned camera, size_t size);
uint16_t health_header(size_t size);

/* A chunk with sound units, or with sound packets of the type and of times that rise by one; answers its words. */
size_t put_image(uint16_t *at, uint16_t sync, unsigned camera, size_t size);
size_t put_health(uint16_t *at, uint16_t sync, size_t size, uint16_t type, uint16_t time);

/* a command with right header and CRC, whatever its content; answers its bytes */
size_t put_command(uint8_t *at, uint64_t fields, const uint8_t *further, size_t n);

#endif
