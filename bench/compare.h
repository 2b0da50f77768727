/* The comparison: many inputs, sound, damaged and at every limit, none of them timed. */
#ifndef COMPARE_H
#define COMPARE_H

#include <stdbool.h>

/* Whether all implementations agree on all inputs and every refusal came; says how many calls were compared. */
bool compare(void);

#endif
