/* A plain check of a parity unit, written from the rules alone and sharing nothing with the library: it keeps a copy of
   the data, padded with zeros to 256 words, and goes through it bit by bit. */
#include "padded.h"

#include <string.h>

enum {
    WORD_BITS = 16,
    ROWS = 64,
    COLUMNS = 64,
    DATA_WORDS = ROWS * COLUMNS / WORD_BITS,
    ROW_PARITY_WORDS = ROWS / WORD_BITS,
    PARITY_WORDS = (ROWS + COLUMNS) / WORD_BITS
};

enum { ACCEPTED = 0, WRONG_LENGTH = 1, ROOM_TOO_SMALL = 3, BAD_PATTERN = 6 };

enum { SOUND = 0, PARITY_BIT = 1, DATA_BIT = 2 };

/* How many of 64 rows or columns differ, and the last one that does. */
struct differing { unsigned count, last; };

/* Reads one bit of a run of words; bit 0 is the top bit of the first word. */
static unsigned get_bit(const uint16_t *words, unsigned index)
{
    return (words[index / WORD_BITS] >> (15 - index % WORD_BITS)) & 1u;
}

/* Turns over one bit of a run of words, numbered as in get_bit. */
static void flip_bit(uint16_t *words, unsigned index)
{
    uint16_t mask = (uint16_t)(1u << (15 - index % WORD_BITS));
    words[index / WORD_BITS] ^= mask;
}

/* Fills the 256 words with the k data words and zeros after them. */
static void pad(const uint16_t *given, size_t k, uint16_t data[DATA_WORDS])
{
    memset(data, 0, DATA_WORDS * sizeof data[0]);
    memcpy(data, given, k * sizeof data[0]);
}

/* Even parity of every row and column: each set data bit turns over the parity bit of its row (bits 0 to 63) and that
   of its column (bits 64 to 127). */
static void make_parity(const uint16_t data[DATA_WORDS], uint16_t parity[PARITY_WORDS])
{
    memset(parity, 0, PARITY_WORDS * sizeof parity[0]);
    for (unsigned row = 0; row < ROWS; row++) {
        for (unsigned column = 0; column < COLUMNS; column++) {
            if (get_bit(data, row * COLUMNS + column)) {
                flip_bit(parity, row);
                flip_bit(parity, ROWS + column);
            }
        }
    }
}

/* Leaves a parity bit set exactly where the unit's own parity differs from that of the data. */
static void compare_parity(const uint16_t *stored, uint16_t parity[PARITY_WORDS])
{
    for (unsigned word = 0; word < PARITY_WORDS; word++) {
        parity[word] ^= stored[word];
    }
}

/* Counts the set bits among the 64 bits of four words, and keeps the last. */
static struct differing find_differing(const uint16_t *four_words)
{
    struct differing found = { 0, 0 };
    for (unsigned index = 0; index < 64; index++) {
        if (get_bit(four_words, index)) {
            found.count++;
            found.last = index;
        }
    }
    return found;
}

/* A refusal has zeros in the rest of the answer. */
static struct padded_reply refuse(unsigned cause)
{
    struct padded_reply reply = { cause, 0, 0, 0 };
    return reply;
}

/* An accepted unit with one bit hit, numbered from the top bit of word 0. */
static struct padded_reply hit_at(unsigned hit, unsigned index)
{
    struct padded_reply reply = { ACCEPTED, hit, index / WORD_BITS, 15 - index % WORD_BITS };
    return reply;
}

/* Nothing differs: sound. One line alone: its parity bit was hit. One row and one column: the data bit where they
   cross, if it is not padding. Else 6. */
static struct padded_reply judge(struct differing rows, struct differing columns, size_t k)
{
    struct padded_reply sound = { ACCEPTED, SOUND, 0, 0 };
    unsigned crossing = rows.last * COLUMNS + columns.last;

    if (rows.count == 0 && columns.count == 0) {
        return sound;
    }
    if (rows.count == 1 && columns.count == 0) {
        return hit_at(PARITY_BIT, rows.last);
    }
    if (rows.count == 0 && columns.count == 1) {
        return hit_at(PARITY_BIT, ROWS + columns.last);
    }
    if (rows.count == 1 && columns.count == 1 && crossing / WORD_BITS < k) {
        return hit_at(DATA_BIT, crossing);
    }
    return refuse(BAD_PATTERN);
}

/* The causes of refusal are tried in the order 1, 6, 3; only when none applies is the room touched, and then only its
   first k words. */
struct padded_reply padded_check(const uint16_t *unit, size_t words, uint16_t *room, size_t room_words)
{
    uint16_t data[DATA_WORDS], parity[PARITY_WORDS];

    if (words < PARITY_WORDS + 1 || words > PARITY_WORDS + DATA_WORDS) {
        return refuse(WRONG_LENGTH);
    }
    size_t k = words - PARITY_WORDS;
    pad(unit + PARITY_WORDS, k, data);
    make_parity(data, parity);
    compare_parity(unit, parity);

    struct differing rows = find_differing(parity);
    struct differing columns = find_differing(parity + ROW_PARITY_WORDS);
    struct padded_reply reply = judge(rows, columns, k);
    if (reply.refusal != ACCEPTED) {
        return reply;
    }
    if (room_words < k) {
        return refuse(ROOM_TOO_SMALL);
    }
    if (reply.hit == DATA_BIT) {
        data[reply.word] ^= (uint16_t)(1u << reply.bit);
    }
    memcpy(room, data, k * sizeof data[0]);
    return reply;
}

/* The unit is the parity of the padded data, then the k data words themselves. No unit has fewer than 1 or more than
   256 data words. */
void padded_write(const uint16_t *data, size_t k, uint16_t *unit)
{
    uint16_t padded[DATA_WORDS], parity[PARITY_WORDS];

    if (k < 1 || k > DATA_WORDS) {
        return;
    }
    pad(data, k, padded);
    make_parity(padded, parity);
    memcpy(unit, parity, sizeof parity);
    memcpy(unit + PARITY_WORDS, padded, k * sizeof padded[0]);
}
