#include "tasks.h"

#include <inttypes.h>
#include <stdio.h>
#include <string.h>

const struct calls *const implementations[IMPLEMENTATIONS] = {
    &ours, &plain_gcc, &plain_clang, &sliced_gcc, &sliced_clang, &best_gcc, &best_clang
};
static const char *const implementation_names[IMPLEMENTATIONS] = {
    "ours", "plain C by gcc", "plain C by clang", "sliced C by gcc", "sliced C by clang", "best C by gcc",
    "best C by clang"
};

const char *const work_names[WORKS] = {
    [COPY_WORDS] = "copy_words",
    [CRC_WORDS] = "crc_words",
    [CRC_BYTES] = "crc_bytes",
    [JUDGE_UNIT] = "judge_unit",
    [CHECK_UNIT] = "check_unit",
    [WRITE_UNIT] = "write_unit",
    [SURVEY] = "survey",
    [OUTLINE] = "outline",
    [READ_FRAME] = "read_frame",
    [WRITE_REEL] = "write_reel",
    [READ_REEL] = "read_reel",
    [LAST_PLACE] = "last_place",
    [READ_PACKET] = "read_packet",
    [READ_COMMAND] = "read_command",
    [WRITE_COMMAND] = "write_command",
};

union room lent;

/* The calls are made through pointers that the compiler cannot see through, so none of them is left out. */
#define OFTEN(call)                          \
    do {                                     \
        uint64_t answer = 0;                 \
        for (size_t i = 0; i < times; i++) { \
            answer = (call);                 \
        }                                    \
        return answer;                       \
    } while (0)

static uint64_t copy_words(const struct task *t)
{
    memcpy(lent.words, t->words, t->count * sizeof *t->words);
    /* the copy must be thought to be looked at */
    __asm__ volatile("" : : "r"(lent.words) : "memory");
    return 0;
}

uint64_t perform(const struct calls *c, const struct task *t, size_t times)
{
    switch (t->work) {
    case COPY_WORDS: OFTEN(copy_words(t));
    case CRC_WORDS: OFTEN(c->crc_words(t->start, t->words, t->count));
    case CRC_BYTES: OFTEN(c->crc_bytes(t->start, t->bytes, t->byte_count));
    case JUDGE_UNIT: OFTEN(c->judge_unit(t->words, t->count));
    case CHECK_UNIT: OFTEN(c->check_unit(t->words, t->count, lent.words, t->room));
    case WRITE_UNIT: OFTEN(c->write_unit(t->words, t->count, lent.words, t->room));
    case SURVEY: OFTEN(c->survey(t->words, t->count, t->sync));
    case OUTLINE: OFTEN(c->outline(t->words, t->count, t->sync));
    case READ_FRAME: OFTEN(c->read_frame(t->words, t->count, t->sync, t->place, lent.words, t->room));
    case WRITE_REEL: OFTEN(c->write_reel(t->words, t->count, t->sync, lent.words, t->room));
    case READ_REEL: OFTEN(c->read_reel(t->words, t->count, t->sync));
    case LAST_PLACE: OFTEN(c->last_place(t->words, t->count, t->sync, t->health, t->health_count, t->type));
    case READ_PACKET: OFTEN(c->read_packet(t->words, t->count, lent.words, t->room));
    case READ_COMMAND: OFTEN(c->read_command(t->catalogue, t->mode, t->bytes, t->byte_count, &lent.fields));
    case WRITE_COMMAND:
        OFTEN(c->write_command(t->catalogue, t->mode, t->fields, t->bytes, t->byte_count, lent.bytes, t->room));
    case WORKS: break;
    }
    return 0;
}

/* The bytes of the room that are looked at: those that are lent, and some behind them. */
static size_t looked_at(const struct task *t)
{
    size_t bytes = (t->room + 16) * sizeof *lent.words;
    return bytes < sizeof lent ? bytes : sizeof lent;
}

unsigned refusal_in(enum work work, uint64_t answer)
{
    switch (work) {
    case COPY_WORDS:
    case CRC_WORDS:
    case CRC_BYTES: return 0;
    case JUDGE_UNIT:
    case CHECK_UNIT: return (unsigned)(answer >> 24);
    default: return (unsigned)(answer >> 48);
    }
}

static bool complain(const struct task *t, size_t who, const char *what, uint64_t its, uint64_t ours_gave)
{
    printf("bench: %s, %zu words, %zu bytes, room %zu: %s %s: %016" PRIX64 ", ours %016" PRIX64 "\n",
           work_names[t->work], t->count, t->byte_count, t->room, implementation_names[who], what, its, ours_gave);
    return false;
}

bool agree(const struct task *t, uint64_t *answer)
{
    static union room before, first;
    size_t bytes = looked_at(t);
    memset(&before, 0xA5, bytes);
    for (size_t i = 0; i < IMPLEMENTATIONS; i++) {
        memcpy(&lent, &before, bytes);
        uint64_t its = perform(implementations[i], t, 1);
        if (i == 0) {
            *answer = its;
            memcpy(&first, &lent, bytes);
        }
        if (its != *answer) {
            return complain(t, i, "answers otherwise", its, *answer);
        }
        if (memcmp(&lent, &first, bytes) != 0) {
            return complain(t, i, "leaves another room", its, *answer);
        }
        if (refusal_in(t->work, its) != 0 && memcmp(&lent, &before, bytes) != 0) {
            return complain(t, i, "refuses and writes", its, *answer);
        }
    }
    return true;
}
