/* The calls in C with every technique that was found to be faster than the plain way. */
#include "shared.h"

/* ---- CRC ---- */

enum { SLICE = 16, ROW_BYTES = 8, KEPT_ROWS = 4 };

#include "tables.h"

/* at most 8 words at once */
static inline uint16_t slice_words(uint16_t crc, const uint16_t *message, size_t words)
{
    unsigned sum = 0;
    for (size_t i = 0; i < words; i++) {
        uint16_t word = (uint16_t)(message[i] ^ (i == 0 ? crc : 0));
        sum ^= table[2 * (words - i) - 1][word >> 8] ^ table[2 * (words - i) - 2][word & 255];
    }
    return (uint16_t)sum;
}

/* 2 to 16 bytes at once */
static inline uint16_t slice_bytes(uint16_t crc, const uint8_t *message, size_t bytes)
{
    unsigned sum = table[bytes - 1][message[0] ^ crc >> 8] ^ table[bytes - 2][message[1] ^ (crc & 255)];
    for (size_t i = 2; i < bytes; i++) {
        sum ^= table[bytes - 1 - i][message[i]];
    }
    return (uint16_t)sum;
}

/* What a message of 4 rows or more leaves modulo P^16, as its last 4 rows. Over single bits the square of a sum is the
   sum of the squares, so P^16 has four terms as P has: x^256 + x^192 + x^80 + 1. A row is thus taken away by an
   exclusive or into the places 64, 176 and 256 bits further on, and as these are whole words, the order of the bytes in
   a word does not matter. */
static inline void keep_rows(uint64_t kept[KEPT_ROWS], const void *message, size_t rows, uint16_t start)
{
    const uint8_t *at = message;
    memcpy(kept, at, KEPT_ROWS * ROW_BYTES);
    uint64_t a = kept[0] ^ start, b = kept[1], c = kept[2], d = kept[3], next;
/* in four steps each row is back in its register */
#pragma GCC unroll 4
    for (size_t i = KEPT_ROWS; i < rows; i++) {
        memcpy(&next, at + ROW_BYTES * i, sizeof next);
        next ^= a;
        d ^= a >> 16;
        c ^= a << 48;
        b ^= a;
        a = b;
        b = c;
        c = d;
        d = next;
    }
    kept[0] = a;
    kept[1] = b;
    kept[2] = c;
    kept[3] = d;
}

static uint16_t crc_words(uint16_t start, const uint16_t *message, size_t words)
{
    uint16_t crc = start;
    if (words >= 4 * (KEPT_ROWS + 1)) {
        uint64_t kept[KEPT_ROWS];
        uint16_t last[4 * KEPT_ROWS];
        keep_rows(kept, message, words / 4, start);
        memcpy(last, kept, sizeof last);
        crc = slice_words(slice_words(0, last, 8), last + 8, 8);
        message += words / 4 * 4;
        words %= 4;
    }
    for (; words >= 8; words -= 8, message += 8) {
        crc = slice_words(crc, message, 8);
    }
    return words == 0 ? crc : slice_words(crc, message, words);
}

static uint16_t crc_bytes(uint16_t start, const uint8_t *message, size_t bytes)
{
    uint16_t crc = start;
    if (bytes >= ROW_BYTES * (KEPT_ROWS + 1)) {
        uint64_t kept[KEPT_ROWS];
        uint8_t last[ROW_BYTES * KEPT_ROWS];
        keep_rows(kept, message, bytes / ROW_BYTES, (uint16_t)(start << 8 | start >> 8));
        memcpy(last, kept, sizeof last);
        crc = slice_bytes(slice_bytes(0, last, 16), last + 16, 16);
        message += bytes / ROW_BYTES * ROW_BYTES;
        bytes %= ROW_BYTES;
    }
    for (; bytes >= 16; bytes -= 16, message += 16) {
        crc = slice_bytes(crc, message, 16);
    }
    switch (bytes) {
    case 0: return crc;
    case 1: return (uint16_t)(crc << 8 ^ table[0][crc >> 8 ^ message[0]]);
    default: return slice_bytes(crc, message, bytes);
    }
}

/* ---- parity ---- */

/* Of each number each piece of two halves is folded into one half, and what is left of both shares a number: the upper
   halves are those of `high`, the lower ones, which the mask marks, those of `low`. */
static inline uint64_t fold(uint64_t high, uint64_t low, unsigned half, uint64_t mask)
{
    return ((high ^ high << half) & ~mask) | ((low ^ low >> half) & mask);
}

/* All 64 rows are folded together, two to one in six steps, in the order that leaves row r at bit r ^ 15. */
static struct parities parities_of(const uint16_t *data, size_t words)
{
    uint16_t padded[DATA_WORDS];
    if (words < DATA_WORDS) {
        memcpy(padded, data, words * sizeof *data);
        memset(padded + words, 0, (DATA_WORDS - words) * sizeof *data);
        data = padded;
    }
    uint64_t rows[32], columns = 0;
    for (size_t i = 0; i < 32; i++) {
        uint64_t low = load_row(data + 4 * i), high = load_row(data + 4 * (i + 32));
        columns ^= low ^ high;
        rows[i] = fold(high, low, 32, 0x00000000FFFFFFFF);
    }
    for (size_t i = 0; i < 16; i++) {
        rows[i] = fold(rows[i + 16], rows[i], 16, 0x0000FFFF0000FFFF);
    }
    for (size_t i = 0; i < 8; i++) {
        rows[i] = fold(rows[i], rows[i + 8], 8, 0x00FF00FF00FF00FF);
    }
    for (size_t i = 0; i < 4; i++) {
        rows[i] = fold(rows[i], rows[i + 4], 4, 0x0F0F0F0F0F0F0F0F);
    }
    for (size_t i = 0; i < 2; i++) {
        rows[i] = fold(rows[i], rows[i + 2], 2, 0x3333333333333333);
    }
    return (struct parities){fold(rows[0], rows[1], 1, 0x5555555555555555), columns};
}

/* ---- search ---- */

enum { BLOCK = 64 };

static inline bool block_has(const uint16_t *words, uint16_t sync)
{
    uint16_t any = 0;
    for (size_t i = 0; i < BLOCK; i++) {
        any |= words[i] == sync;
    }
    return any;
}

/* Word by word for a block's length, as the next chunk is mostly near; after that, blocks without a sync word are
   passed over whole. */
__attribute__((noinline)) static struct chunk search(const struct recording *r, size_t place)
{
    for (;;) {
        size_t stop = place + BLOCK < r->words ? place + BLOCK : r->words;
        for (; place < stop; place++) {
            size_t end = chunk_end(r, place);
            if (end != 0) {
                return (struct chunk){place, end};
            }
        }
        if (place == r->words) {
            return (struct chunk){0, 0};
        }
        while (place + BLOCK <= r->words && !block_has(r->at + place, r->sync)) {
            place += BLOCK;
        }
    }
}

/* A chunk's end, if it is not the recording's, has a legal header, which need not be looked at twice. */
static inline bool next_chunk(const struct recording *r, struct chunk *chunk)
{
    size_t place = chunk->end;
    if (place == r->words) {
        return false;
    }
    if (place != 0) {
        size_t end = place + 2 + size_of(r->at[place + 1]);
        if (end == r->words || legal_at(r, end)) {
            *chunk = (struct chunk){place, end};
            return true;
        }
        place++;
    }
    struct chunk found = search(r, place);
    if (found.end == 0) {
        return false;
    }
    *chunk = found;
    return true;
}

/* ---- the newest packet ---- */

enum { MOST_HEALTH_CHUNKS = LONGEST_RECORDING / (2 + PACKET_WORDS) };

/* From the last chunk to the first, so that nothing before the last sound packet is looked at. */
static const uint16_t *last_in_chunks(const struct recording *r, uint16_t type, bool *ends)
{
    uint16_t places[MOST_HEALTH_CHUNKS];
    size_t count = 0;
    for (struct chunk c = {0, 0}; next_chunk(r, &c);) {
        if (is_health(r->at[c.place + 1])) {
            places[count++] = (uint16_t)c.place;
        }
    }
    while (count-- > 0) {
        const uint16_t *chunk = r->at + places[count];
        const uint16_t *found = last_packet(chunk + 2, size_of(chunk[1]), type);
        if (found != NULL) {
            *ends = places[count] + 2 + size_of(chunk[1]) == r->words;
            return found;
        }
    }
    return NULL;
}

static uint64_t last_place(const uint16_t *science, size_t science_words, uint16_t sync, const uint16_t *health,
                           size_t health_words, uint16_t type)
{
    if (type < 1 || type > 15) {
        return refused(ARGUMENT);
    }
    if (science_words > LONGEST_RECORDING || health_words > LONGEST_RECORDING || health_words % PACKET_WORDS != 0) {
        return refused(LENGTH);
    }
    struct recording r = {science, science_words, sync};
    bool ends = false;
    const uint16_t *in_science = last_in_chunks(&r, type, &ends);
    return show(science, in_science, ends, health, last_packet(health, health_words, type));
}

/* ---- frames ---- */

enum { MOST_UNITS = LONGEST_RECORDING / UNIT_WORDS + 1 };

static inline size_t unit_words(size_t left)
{
    return left < UNIT_WORDS ? left : UNIT_WORDS;
}

/* Each unit is judged once, and what was found is kept until the data are copied. */
static uint64_t read_frame(const uint16_t *recording, size_t words, uint16_t sync, size_t place, uint16_t *room,
                           size_t room_words)
{
    if (words > LONGEST_RECORDING) {
        return refused(LENGTH);
    }
    struct recording r = {recording, words, sync};
    struct frame frame;
    unsigned refusal = find_frame(&r, place, &frame);
    if (refusal != 0) {
        return refused(refusal);
    }
    uint32_t found[MOST_UNITS], *answer = found;
    const uint16_t *chunk = recording + place;
    for (size_t i = 0; i < frame.chunks; i++, chunk += 2 + size_of(chunk[1])) {
        size_t size = size_of(chunk[1]);
        for (size_t at = 0; at < size; at += UNIT_WORDS) {
            *answer = judge_unit(chunk + 2 + at, unit_words(size - at));
            if (*answer++ >> 24 != 0) {
                return refused(PARITY);
            }
        }
    }
    if (room_words < frame.data_words) {
        return refused(ROOM);
    }
    answer = found;
    chunk = recording + place;
    for (size_t i = 0; i < frame.chunks; i++, chunk += 2 + size_of(chunk[1])) {
        size_t size = size_of(chunk[1]);
        for (size_t at = 0; at < size; at += UNIT_WORDS) {
            size_t data = unit_words(size - at) - PARITY_WORDS;
            memcpy(room, chunk + 2 + at + PARITY_WORDS, data * sizeof *room);
            repair(room, *answer++);
            room += data;
        }
    }
    return frame_answer(&frame);
}

/* ---- reel writing ---- */

/* The chunks are counted first only where the room might be too small. */
static uint64_t write_reel(const uint16_t *recording, size_t words, uint16_t sync, uint16_t *room, size_t room_words)
{
    if (words > LONGEST_RECORDING) {
        return refused(LENGTH);
    }
    struct recording r = {recording, words, sync};
    if (room_words < words + words / SHORTEST_CHUNK * 2 + TRAILER_WORDS
        && room_words < words + 2 * count_chunks(&r) + TRAILER_WORDS) {
        return refused(ROOM);
    }
    return put_reel(&r, room);
}
