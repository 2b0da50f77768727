/* No answer and no written word differs from those of a plain check that keeps a padded copy of the data. */
#include <stddef.h>
#include <stdint.h>
#include <stdio.h>
#include <string.h>

#include "cases.h"
#include "hawserfen.h"
#include "padded.h"

enum { DAMAGES = 100000 };

static unsigned long met[OUTCOMES], compared, differing;

static int same(struct padded_reply wanted, uint32_t answer)
{
    return HAWSERFEN_REFUSAL(answer) == wanted.refusal && HAWSERFEN_CASE(answer) == wanted.hit
        && HAWSERFEN_WORD(answer) == wanted.word && HAWSERFEN_BIT(answer) == wanted.bit;
}

/* Both checks in rooms that hold the same words; and the judge, for whom there is always room. */
static void compare(const uint16_t *unit, size_t words, size_t room_words)
{
    uint16_t lent[LONGEST], room[DATA + SPARE], wanted[DATA + SPARE], unasked[DATA];
    memcpy(lent, unit, words * sizeof *unit);
    fill(room, DATA + SPARE);
    memcpy(wanted, room, sizeof room);

    struct padded_reply checked = padded_check(unit, words, wanted, room_words);
    struct padded_reply judged = checked.refusal == 3 ? padded_check(unit, words, unasked, DATA) : checked;
    int agree = same(checked, hawserfen_check_unit(lent, words, room, room_words));
    agree = agree && same(judged, hawserfen_judge_unit(lent, words));
    agree = agree && memcmp(room, wanted, sizeof room) == 0;
    agree = agree && memcmp(lent, unit, words * sizeof *unit) == 0;
    compared++;
    met[outcome(checked)]++;
    differing += !agree;
    if (!agree && differing == 1) {
        printf("stack: the first that differs has %lu words, its room %lu\n", (unsigned long)words, (unsigned long)room_words);
    }
}

/* In rooms with a word too few, with just enough, and with more. */
static void compare_in_rooms(const uint16_t *unit, size_t words)
{
    size_t data = data_words(words);
    if (data > 0) {
        compare(unit, words, data - 1);
    }
    compare(unit, words, data);
    compare(unit, words, data + SPARE);
}

static void every_length(void)
{
    uint16_t unit[LONGEST];
    for (size_t words = 0; words <= LONGEST; words++) {
        make_unit(unit, words);
        compare_in_rooms(unit, words);
    }
}

static void every_flip(size_t words)
{
    uint16_t unit[LONGEST];
    make_unit(unit, words);
    for (size_t bit = 0; bit < 16 * words; bit++) {
        flip(unit, bit);
        compare_in_rooms(unit, words);
        flip(unit, bit);
    }
}

/* One parity bit of a row and one of a column: a data bit, which may lie in the padding. */
static void every_crossing(size_t words)
{
    uint16_t unit[LONGEST];
    make_unit(unit, words);
    for (size_t pair = 0; pair < 64 * 64; pair++) {
        flip(unit, pair / 64);
        flip(unit, 64 + pair % 64);
        compare(unit, words, DATA);
        flip(unit, pair / 64);
        flip(unit, 64 + pair % 64);
    }
}

/* Up to four flips, or a word changed, in a unit of any length and with a room of any size. */
static void random_damage(void)
{
    uint16_t unit[LONGEST];
    size_t words = below(LONGEST + 1);
    make_unit(unit, words);
    for (unsigned flips = below(5); flips > 0 && words > 0; flips--) {
        flip(unit, below(16 * (unsigned)words));
    }
    if (below(8) == 0 && words > 0) {
        unit[below((unsigned)words)] = (uint16_t)below(65536);
    }
    compare(unit, words, below(DATA + SPARE + 1));
}

static void tell(void)
{
    printf("stack: %lu checks compared with a padded copy's, %lu differ:", compared, differing);
    for (unsigned i = 0; i < OUTCOMES; i++) {
        printf(" %s %lu%s", outcome_names[i], met[i], i + 1 < OUTCOMES ? "," : "\n");
    }
}

int main(void)
{
    static const size_t lengths[] = { 9, 10, 12, 13, 263, 264 };
    every_length();
    for (size_t i = 0; i < sizeof lengths / sizeof *lengths; i++) {
        every_flip(lengths[i]);
        every_crossing(lengths[i]);
    }
    for (unsigned long i = 0; i < DAMAGES; i++) {
        random_damage();
    }
    tell();
    return all_met(met) && differing == 0 ? 0 : 1;
}
