/* Units to try a check with, the same in every run. */
#ifndef CASES_H
#define CASES_H

#include <stddef.h>
#include <stdint.h>

#include "padded.h"

enum {
    PARITY = 8,
    DATA = 256,
    UNIT = PARITY + DATA,
    /* units are tried up to so many words: one more than a unit has at the most */
    LONGEST = UNIT + 1,
    /* rooms are up to so many words larger than the data */
    SPARE = 4
};

/* What comes of a check: one of three cases, or one of three refusals. */
enum { SOUND, PARITY_BIT, DATA_BIT, REFUSED_1, REFUSED_6, REFUSED_3, OUTCOMES };

extern const char *const outcome_names[OUTCOMES];

/* which of these a reply is */
unsigned outcome(struct padded_reply reply);

/* whether each outcome came at least once; says which did not */
int all_met(const unsigned long met[OUTCOMES]);

/* the next number, below the bound */
unsigned below(unsigned bound);

void fill(uint16_t *words, size_t count);

/* the data words that a unit of so many words has; 0 where no unit has them */
size_t data_words(size_t words);

/* a sound unit of so many words, or any words where no unit has that length */
void make_unit(uint16_t *unit, size_t words);

/* flips one bit of the unit, counted from the lowest of its first word */
void flip(uint16_t *unit, size_t bit);

#endif
