/* The rows of the table: what is timed, on which input. */
#ifndef ROWS_H
#define ROWS_H

#include "tasks.h"

struct row {
    const char *table; /* the title of the table that begins with this row, if one does */
    char name[64];
    struct task task;
    size_t per;    /* the words, or bytes, that the time is divided by */
    uint64_t want; /* the answer that shows that the input is what the name says */
};

enum { MOST_ROWS = 100 };

/* Makes the inputs of all rows; answers how many rows there are. */
size_t make_rows(struct row rows[MOST_ROWS]);

#endif
