/* The calls that are compared: one table for each implementation, so that all are called in the same way. */
#ifndef CALLS_H
#define CALLS_H

#include <stddef.h>
#include <stdint.h>

/* As in crates/exports/hawserfen.h, where it is said what each call takes and answers. */
struct calls {
    uint16_t (*crc_words)(uint16_t start, const uint16_t *message, size_t words);
    uint16_t (*crc_bytes)(uint16_t start, const uint8_t *message, size_t bytes);
    uint32_t (*judge_unit)(const uint16_t *unit, size_t unit_words);
    uint32_t (*check_unit)(const uint16_t *unit, size_t unit_words, uint16_t *room, size_t room_words);
    uint64_t (*write_unit)(const uint16_t *data, size_t data_words, uint16_t *room, size_t room_words);
    uint64_t (*survey)(const uint16_t *recording, size_t words, uint16_t sync);
    uint64_t (*outline)(const uint16_t *recording, size_t words, uint16_t sync);
    uint64_t (*read_frame)(const uint16_t *recording, size_t words, uint16_t sync, size_t place,
                           uint16_t *room, size_t room_words);
    uint64_t (*write_reel)(const uint16_t *recording, size_t words, uint16_t sync, uint16_t *room, size_t room_words);
    uint64_t (*read_reel)(const uint16_t *reel, size_t words, uint16_t sync);
    uint64_t (*last_place)(const uint16_t *science, size_t science_words, uint16_t sync,
                           const uint16_t *health, size_t health_words, uint16_t type);
    uint64_t (*read_packet)(const uint16_t *packet, size_t words, uint16_t *room, size_t room_words);
    uint64_t (*read_command)(uint8_t catalogue, uint8_t mode, const uint8_t *bytes, size_t n, uint64_t *fields);
    uint64_t (*write_command)(uint8_t catalogue, uint8_t mode, uint64_t fields, const uint8_t *further, size_t n,
                              uint8_t *room, size_t room_bytes);
};

/* The proved library, then the C implementations, each by two compilers. */
extern const struct calls ours, plain_gcc, plain_clang, sliced_gcc, sliced_clang, best_gcc, best_clang;

#endif
