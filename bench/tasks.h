/* A task is one call with its arguments. It is given to every implementation in the same way. */
#ifndef TASKS_H
#define TASKS_H

#include <stdbool.h>

#include "calls.h"

enum work {
    COPY_WORDS, /* no call of the library: the memory's own speed */
    CRC_WORDS,
    CRC_BYTES,
    JUDGE_UNIT,
    CHECK_UNIT,
    WRITE_UNIT,
    SURVEY,
    OUTLINE,
    READ_FRAME,
    WRITE_REEL,
    READ_REEL,
    LAST_PLACE,
    READ_PACKET,
    READ_COMMAND,
    WRITE_COMMAND,
    WORKS
};

/* the names of the calls, as in struct calls */
extern const char *const work_names[WORKS];

struct task {
    enum work work;
    const uint16_t *words; /* the message, data, unit, recording, reel or packet, and how many words it has */
    size_t count;
    uint16_t sync;
    size_t place;           /* of the frame */
    const uint16_t *health; /* the second recording */
    size_t health_count;
    uint16_t type;
    const uint8_t *bytes; /* the message, the command or the further bytes, and how many they are */
    size_t byte_count;
    uint8_t catalogue, mode;
    uint64_t fields;
    uint16_t start; /* the CRC's register */
    size_t room;    /* how much room is lent: words, and for a command bytes */
};

enum { LARGEST_ROOM = 40000 };

/* Lent to every call that wants room. */
union room {
    uint64_t fields;
    uint16_t words[LARGEST_ROOM];
    uint8_t bytes[LARGEST_ROOM * 2];
};
extern union room lent;

enum { IMPLEMENTATIONS = 7 };
extern const struct calls *const implementations[IMPLEMENTATIONS];

/* Makes the call so many times, and gives its last answer. */
uint64_t perform(const struct calls *calls, const struct task *task, size_t times);

/* The refusal in an answer; 0 where there is none. */
unsigned refusal_in(enum work work, uint64_t answer);

/* Whether all implementations give one answer and leave one room, which a refusal leaves as it was. Says where not. */
bool agree(const struct task *task, uint64_t *answer);

#endif
