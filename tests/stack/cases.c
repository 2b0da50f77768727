#include "cases.h"

#include <stdio.h>

const char *const outcome_names[OUTCOMES] = {
    "sound", "parity bit", "data bit", "refused 1", "refused 6", "refused 3"
};

unsigned outcome(struct padded_reply reply)
{
    switch (reply.refusal) {
    case 0: return reply.hit;
    case 1: return REFUSED_1;
    case 3: return REFUSED_3;
    default: return REFUSED_6;
    }
}

int all_met(const unsigned long met[OUTCOMES])
{
    int all = 1;
    for (unsigned i = 0; i < OUTCOMES; i++) {
        if (met[i] == 0) {
            printf("stack: no unit was tried that is: %s\n", outcome_names[i]);
            all = 0;
        }
    }
    return all;
}

/* xorshift, 64 bits, from a fixed start */
unsigned below(unsigned bound)
{
    static uint64_t state = 88172645463325252u;
    state ^= state << 13;
    state ^= state >> 7;
    state ^= state << 17;
    return (unsigned)((state >> 33) % bound);
}

void fill(uint16_t *words, size_t count)
{
    for (size_t i = 0; i < count; i++) {
        words[i] = (uint16_t)below(65536);
    }
}

size_t data_words(size_t words)
{
    return words > PARITY && words <= UNIT ? words - PARITY : 0;
}

void make_unit(uint16_t *unit, size_t words)
{
    uint16_t data[DATA];
    fill(unit, words);
    if (data_words(words) > 0) {
        fill(data, data_words(words));
        padded_write(data, data_words(words), unit);
    }
}

void flip(uint16_t *unit, size_t bit)
{
    unit[bit / 16] ^= (uint16_t)(1u << bit % 16);
}
