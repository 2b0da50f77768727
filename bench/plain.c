/* The calls in plain C: a table for the CRC, 64-bit rows for the parity, the search word by word. With shared.h and
   rules.h it was written from docs/FORMAT.md alone. */
#include "shared.h"

/* ---- CRC ---- */

#ifdef CRC_BY_SLICES
#include "slices.h"
#else

/* The CRC is linear: that of a byte is the exclusive or of those of its bits. */
#define ENTRY(byte)                                                                                                   \
    (((byte) & 1 ? 0x1021 : 0) ^ ((byte) & 2 ? 0x2042 : 0) ^ ((byte) & 4 ? 0x4084 : 0) ^ ((byte) & 8 ? 0x8108 : 0)     \
     ^ ((byte) & 16 ? 0x1231 : 0) ^ ((byte) & 32 ? 0x2462 : 0) ^ ((byte) & 64 ? 0x48C4 : 0)                           \
     ^ ((byte) & 128 ? 0x9188 : 0))
#define ENTRIES_4(byte) ENTRY(byte), ENTRY((byte) + 1), ENTRY((byte) + 2), ENTRY((byte) + 3)
#define ENTRIES_16(byte) ENTRIES_4(byte), ENTRIES_4((byte) + 4), ENTRIES_4((byte) + 8), ENTRIES_4((byte) + 12)
#define ENTRIES_64(byte) ENTRIES_16(byte), ENTRIES_16((byte) + 16), ENTRIES_16((byte) + 32), ENTRIES_16((byte) + 48)

static const uint16_t crc_table[256] = {ENTRIES_64(0), ENTRIES_64(64), ENTRIES_64(128), ENTRIES_64(192)};

static uint16_t crc_byte(uint16_t crc, uint8_t byte)
{
    return (uint16_t)(crc << 8 ^ crc_table[crc >> 8 ^ byte]);
}

static uint16_t crc_words(uint16_t start, const uint16_t *message, size_t words)
{
    uint16_t crc = start;
    for (size_t i = 0; i < words; i++) {
        crc = crc_byte(crc, (uint8_t)(message[i] >> 8));
        crc = crc_byte(crc, (uint8_t)message[i]);
    }
    return crc;
}

static uint16_t crc_bytes(uint16_t start, const uint8_t *message, size_t bytes)
{
    uint16_t crc = start;
    for (size_t i = 0; i < bytes; i++) {
        crc = crc_byte(crc, message[i]);
    }
    return crc;
}

#endif

/* ---- parity ---- */

static void add_row(struct parities *p, uint64_t row, size_t index)
{
    p->rows ^= (uint64_t)__builtin_parityll(row) << (index ^ 15);
    p->columns ^= row;
}

static struct parities parities_of(const uint16_t *data, size_t words)
{
    struct parities p = {0, 0};
    for (size_t row = 0; row < words / 4; row++) {
        add_row(&p, load_row(data + 4 * row), row);
    }
    if (words % 4 != 0) {
        uint16_t last[4] = {0};
        memcpy(last, data + words / 4 * 4, words % 4 * sizeof *data);
        add_row(&p, load_row(last), words / 4);
    }
    return p;
}

/* ---- search ---- */

static bool next_chunk(const struct recording *r, struct chunk *chunk)
{
    /* no header stands at the last word */
    for (size_t place = chunk->end; place + 1 < r->words; place++) {
        size_t end = chunk_end(r, place);
        if (end != 0) {
            *chunk = (struct chunk){place, end};
            return true;
        }
    }
    return false;
}

/* ---- the newest packet ---- */

static uint64_t last_place(const uint16_t *science, size_t science_words, uint16_t sync, const uint16_t *health,
                           size_t health_words, uint16_t type)
{
    if (type < 1 || type > 15) {
        return refused(ARGUMENT);
    }
    if (science_words > LONGEST_RECORDING || health_words > LONGEST_RECORDING || health_words % PACKET_WORDS != 0) {
        return refused(LENGTH);
    }
    struct recording r = {science, science_words, sync};
    const uint16_t *in_science = NULL;
    bool ends = false;
    for (struct chunk c = {0, 0}; next_chunk(&r, &c);) {
        if (is_health(science[c.place + 1])) {
            const uint16_t *found = last_packet(science + c.place + 2, c.end - c.place - 2, type);
            if (found != NULL) {
                in_science = found;
                ends = c.end == science_words;
            }
        }
    }
    return show(science, in_science, ends, health, last_packet(health, health_words, type));
}

/* ---- frames ---- */

/* Judges the units of an image chunk's payload; where there is a room, their data go there too. */
static bool read_units(const uint16_t *payload, size_t size, uint16_t *room)
{
    for (size_t at = 0, words; at < size; at += words) {
        words = size - at < UNIT_WORDS ? size - at : UNIT_WORDS;
        if (room == NULL) {
            if (judge_unit(payload + at, words) >> 24 != 0) {
                return false;
            }
        } else {
            check_unit(payload + at, words, room, DATA_WORDS);
            room += words - PARITY_WORDS;
        }
    }
    return true;
}

static uint64_t read_frame(const uint16_t *recording, size_t words, uint16_t sync, size_t place, uint16_t *room,
                           size_t room_words)
{
    if (words > LONGEST_RECORDING) {
        return refused(LENGTH);
    }
    struct recording r = {recording, words, sync};
    struct frame frame;
    unsigned refusal = find_frame(&r, place, &frame);
    if (refusal != 0) {
        return refused(refusal);
    }
    size_t at = place;
    for (size_t i = 0; i < frame.chunks; i++) {
        size_t size = size_of(recording[at + 1]);
        if (!read_units(recording + at + 2, size, NULL)) {
            return refused(PARITY);
        }
        at += 2 + size;
    }
    if (room_words < frame.data_words) {
        return refused(ROOM);
    }
    at = place;
    for (size_t i = 0; i < frame.chunks; i++) {
        size_t size = size_of(recording[at + 1]);
        read_units(recording + at + 2, size, room);
        room += data_words_of(size);
        at += 2 + size;
    }
    return frame_answer(&frame);
}

/* ---- reel writing ---- */

static uint64_t write_reel(const uint16_t *recording, size_t words, uint16_t sync, uint16_t *room, size_t room_words)
{
    if (words > LONGEST_RECORDING) {
        return refused(LENGTH);
    }
    struct recording r = {recording, words, sync};
    if (room_words < words + 2 * count_chunks(&r) + TRAILER_WORDS) {
        return refused(ROOM);
    }
    return put_reel(&r, room);
}
