/* The stack that a check of a unit takes: the bytes below its caller's stack pointer down to the last that it writes, its
   return address included. The call is made with the stack pointer at the top of an area that holds one byte over and
   over; how far down the area has changed then is the answer. It is done with two bytes, as a call may write the one
   that was there. */
#include <stddef.h>
#include <stdint.h>
#include <stdio.h>
#include <string.h>

#include "cases.h"
#include "hawserfen.h"
#include "padded.h"

enum {
    /* bytes that are allowed */
    CHECK_LIMIT = 192,
    JUDGE_LIMIT = 128,
    /* a padded copy has as many, and the plain check that keeps one must be seen to take more */
    COPY = DATA * sizeof(uint16_t),
    RETURN_ADDRESS = 8,
    /* so many bytes below the stack pointer are looked at after each call, and so many below those at the end */
    AREA = 4096,
    BELOW = 65536,
    /* so many parity bits and data bits are tried in each length */
    TRIES = 8
};

static unsigned char stack[BELOW + AREA] __attribute__((aligned(16)));
static unsigned char *const area = stack + BELOW;
static const unsigned char patterns[] = { 0x00, 0xA5 };

typedef void call(void);

/* Calls f with four arguments and the stack pointer at `top`, below which nothing else is written. */
void call_at(void *top, call *f, const uint16_t *unit, size_t words, uint16_t *room, size_t room_words);

__asm__(".text\n"
        ".globl call_at\n"
        "call_at:\n"
        "    pushq %rbp\n"
        "    movq %rsp, %rbp\n"
        "    movq %rdi, %rsp\n"
        "    movq %rsi, %rax\n"
        "    movq %rdx, %rdi\n"
        "    movq %rcx, %rsi\n"
        "    movq %r8, %rdx\n"
        "    movq %r9, %rcx\n"
        "    callq *%rax\n"
        "    movq %rbp, %rsp\n"
        "    popq %rbp\n"
        "    retq\n");

static void nothing(void)
{
}

/* a function, and the most that it was seen to take */
struct measured {
    const char *name;
    call *function;
    size_t bytes;
};

static struct measured empty = { "an empty function", nothing, 0 };
static struct measured check = { "check", (call *)hawserfen_check_unit, 0 };
static struct measured judge = { "judge", (call *)hawserfen_judge_unit, 0 };
static struct measured padded = { "a plain check in C with a padded copy", (call *)padded_check, 0 };

static unsigned long met[OUTCOMES];

/* How many bytes from here on hold the pattern still. */
static size_t untouched(const unsigned char *from, size_t bytes, unsigned char pattern)
{
    size_t count = 0;
    while (count < bytes && from[count] == pattern) {
        count++;
    }
    return count;
}

static void measure(struct measured *m, const uint16_t *unit, size_t words, size_t room_words)
{
    uint16_t room[DATA + SPARE];
    for (size_t i = 0; i < sizeof patterns; i++) {
        memset(area, patterns[i], AREA);
        call_at(area + AREA, m->function, unit, words, room, room_words);
        size_t bytes = AREA - untouched(area, AREA, patterns[i]);
        if (bytes > m->bytes) {
            m->bytes = bytes;
        }
    }
}

static void measure_all(const uint16_t *unit, size_t words, size_t room_words)
{
    uint16_t room[DATA + SPARE];
    measure(&empty, unit, words, room_words);
    measure(&check, unit, words, room_words);
    measure(&judge, unit, words, room_words);
    measure(&padded, unit, words, room_words);
    met[outcome(padded_check(unit, words, room, room_words))]++;
}

/* In no room, in just enough, and in more. */
static void in_rooms(const uint16_t *unit, size_t words)
{
    measure_all(unit, words, 0);
    measure_all(unit, words, data_words(words));
    measure_all(unit, words, data_words(words) + SPARE);
}

/* A sound unit of so many words; with a parity bit hit; with two of one word, which is beyond repair; with a data bit hit. */
static void one_length(size_t words)
{
    uint16_t unit[LONGEST];
    make_unit(unit, words);
    in_rooms(unit, words);
    for (unsigned i = 0; i < TRIES && data_words(words) > 0; i++) {
        size_t parity_bit = below(16 * PARITY);
        size_t data_bit = 16 * PARITY + below(16 * (unsigned)data_words(words));
        flip(unit, parity_bit);
        in_rooms(unit, words);
        flip(unit, parity_bit ^ 1);
        in_rooms(unit, words);
        flip(unit, parity_bit);
        flip(unit, parity_bit ^ 1);
        flip(unit, data_bit);
        in_rooms(unit, words);
        flip(unit, data_bit);
    }
}

/* Whether the measurement itself is right: an empty function takes its return address and no more, a copy is seen, and no
   call went deeper than is looked at. */
static int trusted(void)
{
    size_t deeper = BELOW - untouched(stack, BELOW, patterns[1]);
    printf("stack: %s: %lu bytes\n", padded.name, (unsigned long)padded.bytes);
    if (empty.bytes == RETURN_ADDRESS && padded.bytes > COPY && deeper == 0) {
        return 1;
    }
    printf("stack: the measurement is wrong: %s: %lu bytes; %lu more below the area\n", empty.name, (unsigned long)empty.bytes,
        (unsigned long)deeper);
    return 0;
}

static int within(struct measured m, size_t limit)
{
    printf("stack: %s: %lu bytes, %lu allowed\n", m.name, (unsigned long)m.bytes, (unsigned long)limit);
    return m.bytes <= limit;
}

int main(void)
{
    memset(stack, patterns[1], BELOW);
    for (size_t words = 0; words <= LONGEST; words++) {
        one_length(words);
    }
    int fine = all_met(met);
    fine &= trusted();
    fine &= within(check, CHECK_LIMIT);
    fine &= within(judge, JUDGE_LIMIT);
    return fine ? 0 : 1;
}
