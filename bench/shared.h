/* The calls that the plain and the best C implementation write in the same way, over a CRC, a parity and a search that
   each has its own, as it has its own ways to read a frame, to write a reel and to find the newest packet. */
#ifndef SHARED_H
#define SHARED_H

#include "calls.h"
#include "rules.h"

static uint16_t crc_words(uint16_t start, const uint16_t *message, size_t words);
static uint16_t crc_bytes(uint16_t start, const uint8_t *message, size_t bytes);

/* the parities of 1 to 256 data words */
static struct parities parities_of(const uint16_t *data, size_t words);

/* moves on to the listed chunk that comes next; false where none is left */
static bool next_chunk(const struct recording *r, struct chunk *chunk);

static uint64_t read_frame(const uint16_t *recording, size_t words, uint16_t sync, size_t place, uint16_t *room,
                           size_t room_words);
static uint64_t write_reel(const uint16_t *recording, size_t words, uint16_t sync, uint16_t *room, size_t room_words);
static uint64_t last_place(const uint16_t *science, size_t science_words, uint16_t sync, const uint16_t *health,
                           size_t health_words, uint16_t type);

/* ---- parity units ---- */

static uint64_t write_unit(const uint16_t *data, size_t data_words, uint16_t *room, size_t room_words)
{
    if (data_words < 1 || data_words > DATA_WORDS) {
        return refused(LENGTH);
    }
    if (room_words < PARITY_WORDS + data_words) {
        return refused(ROOM);
    }
    struct parities p = parities_of(data, data_words);
    memcpy(room, &p.rows, sizeof p.rows);
    memcpy(room + 4, &p.columns, sizeof p.columns);
    memcpy(room + PARITY_WORDS, data, data_words * sizeof *data);
    return accepted(PARITY_WORDS + data_words, 0, 0);
}

static uint32_t judge_unit(const uint16_t *unit, size_t unit_words)
{
    if (unit_words < PARITY_WORDS + 1 || unit_words > UNIT_WORDS) {
        return (uint32_t)LENGTH << 24;
    }
    struct parities differ = parities_of(unit + PARITY_WORDS, unit_words - PARITY_WORDS);
    differ.rows ^= load_row(unit);
    differ.columns ^= load_row(unit + 4);
    return judge(differ, unit_words - PARITY_WORDS);
}

static uint32_t check_unit(const uint16_t *unit, size_t unit_words, uint16_t *room, size_t room_words)
{
    uint32_t answer = judge_unit(unit, unit_words);
    if (answer >> 24 != 0) {
        return answer;
    }
    if (room_words < unit_words - PARITY_WORDS) {
        return (uint32_t)ROOM << 24;
    }
    memcpy(room, unit + PARITY_WORDS, (unit_words - PARITY_WORDS) * sizeof *room);
    repair(room, answer);
    return answer;
}

/* ---- chunks ---- */

static uint64_t survey(const uint16_t *recording, size_t words, uint16_t sync)
{
    if (words > LONGEST_RECORDING) {
        return refused(LENGTH);
    }
    struct recording r = {recording, words, sync};
    size_t chunks = 0, listed = 0;
    bool ends = false;
    for (struct chunk c = {0, 0}; next_chunk(&r, &c);) {
        chunks++;
        listed += c.end - c.place;
        ends = c.end == words;
    }
    return accepted(chunks, words - listed, ends);
}

static uint64_t outline(const uint16_t *recording, size_t words, uint16_t sync)
{
    if (words > LONGEST_RECORDING) {
        return refused(LENGTH);
    }
    struct recording r = {recording, words, sync};
    size_t runs[2] = {0, 0}, end_before = 0;
    int kind_before = -1;
    for (struct chunk c = {0, 0}; next_chunk(&r, &c);) {
        int kind = is_health(recording[c.place + 1]);
        runs[kind] += kind != kind_before || c.place != end_before;
        kind_before = kind;
        end_before = c.end;
    }
    return accepted(runs[0], runs[1], 0);
}

/* ---- health packets ---- */

static bool right_crc(const uint16_t *packet)
{
    return crc_words(crc_words(CRC_START, packet, 1), packet + 2, PACKET_WORDS - 2) == packet[1];
}

static uint64_t read_packet(const uint16_t *packet, size_t words, uint16_t *room, size_t room_words)
{
    if (words != PACKET_WORDS) {
        return refused(LENGTH);
    }
    if (!right_crc(packet)) {
        return refused(WRONG_CRC);
    }
    if (!permitted_type(packet[0])) {
        return refused(FIELD);
    }
    if (room_words < PACKET_REST) {
        return refused(ROOM);
    }
    memcpy(room, packet + PACKET_WORDS - PACKET_REST, PACKET_REST * sizeof *room);
    return accepted(packet[0], packet[2], 0);
}

static const uint16_t *last_packet(const uint16_t *packets, size_t words, uint16_t type)
{
    for (size_t at = words; at >= PACKET_WORDS; at -= PACKET_WORDS) {
        const uint16_t *packet = packets + at - PACKET_WORDS;
        if (packet[0] == type && right_crc(packet)) {
            return packet;
        }
    }
    return NULL;
}

/* The answer for the last sound packets of the two recordings, of which either may be missing. */
static uint64_t show(const uint16_t *science, const uint16_t *in_science, bool ends, const uint16_t *health,
                     const uint16_t *in_health)
{
    unsigned shown = in_science != NULL ? 1 : in_health != NULL ? 2 : 0;
    if (in_science != NULL && in_health != NULL) {
        shown = newer(in_science[2], in_health[2]);
    }
    switch (shown) {
    case 1: return accepted(1, (size_t)(in_science - science), ends);
    case 2: return accepted(2, (size_t)(in_health - health), 0);
    default: return refused(NOTHING_THERE);
    }
}

/* ---- frames ---- */

struct frame {
    unsigned camera;
    size_t chunks, data_words;
    bool ends;
};

/* The complete frame at the place, or the refusal 2 or 14. */
static unsigned find_frame(const struct recording *r, size_t place, struct frame *frame)
{
    struct chunk c = {0, 0};
    bool listed = next_chunk(r, &c);
    while (listed && c.place < place) {
        listed = next_chunk(r, &c);
    }
    if (!listed || c.place != place || is_health(r->at[place + 1]) || camera_of(r->at[place + 1]) == 0) {
        return NOTHING_THERE;
    }
    *frame = (struct frame){.camera = camera_of(r->at[place + 1])};
    bool whole = true;
    size_t at = place, end = c.end;
    while (end != 0 && !is_health(r->at[at + 1])) {
        if (frame->chunks != 0 && (!whole || camera_of(r->at[at + 1]) != 0)) {
            return CUT;
        }
        size_t size = size_of(r->at[at + 1]);
        whole = size % UNIT_WORDS == 0;
        frame->chunks++;
        frame->data_words += data_words_of(size);
        at = end;
        end = chunk_end(r, at);
    }
    frame->ends = end == r->words;
    const uint16_t *packet = r->at + at + 2;
    return end != 0 && packet[0] == 3 + frame->camera && right_crc(packet) ? 0 : CUT;
}

static uint64_t frame_answer(const struct frame *frame)
{
    return accepted(frame->chunks, frame->data_words, frame->camera + 4 + 8u * frame->ends);
}

/* ---- reels ---- */

static size_t count_chunks(const struct recording *r)
{
    size_t chunks = 0;
    for (struct chunk c = {0, 0}; next_chunk(r, &c);) {
        chunks++;
    }
    return chunks;
}

/* Writes the reel to a room that is known to be large enough. */
static uint64_t put_reel(const struct recording *r, uint16_t *room)
{
    memcpy(room, r->at, r->words * sizeof *room);
    uint16_t *entry = room + r->words;
    for (struct chunk c = {0, 0}; next_chunk(r, &c);) {
        *entry++ = (uint16_t)c.place;
        *entry++ = r->at[c.place + 1];
    }
    size_t index_words = (size_t)(entry - room) - r->words;
    entry[0] = (uint16_t)(index_words / 2);
    entry[1] = (uint16_t)r->words;
    entry[2] = crc_words(CRC_START, room + r->words, index_words + 2);
    entry[3] = 1;
    return accepted(r->words + index_words + TRAILER_WORDS, 0, 0);
}

static uint64_t read_reel(const uint16_t *reel, size_t words, uint16_t sync)
{
    if (words < TRAILER_WORDS || words > LONGEST_REEL) {
        return refused(LENGTH);
    }
    const uint16_t *trailer = reel + words - TRAILER_WORDS;
    size_t entries = trailer[0], n = trailer[1];
    if (n > LONGEST_RECORDING || n + 2 * entries + TRAILER_WORDS != words || trailer[3] != 1
        || crc_words(CRC_START, reel + n, 2 * entries + 2) != trailer[2]) {
        return refused(REEL);
    }
    struct recording r = {reel, n, sync};
    const uint16_t *entry = reel + n;
    for (struct chunk c = {0, 0}; next_chunk(&r, &c); entry += 2) {
        if (entry == trailer || entry[0] != c.place || entry[1] != reel[c.place + 1]) {
            return refused(REEL);
        }
    }
    return entry == trailer ? accepted(n, entries, 0) : refused(REEL);
}

/* ---- commands ---- */

static uint64_t read_command(uint8_t catalogue, uint8_t mode, const uint8_t *bytes, size_t n, uint64_t *fields)
{
    if (!known_catalogue_and_mode(catalogue, mode)) {
        return refused(ARGUMENT);
    }
    if (n < SHORTEST_COMMAND || n - SHORTEST_COMMAND > longest_further(catalogue)) {
        return refused(LENGTH);
    }
    if (!right_header(bytes, n)) {
        return refused(HEADER);
    }
    if (crc_bytes(CRC_START, bytes, n - 2) != get_word(bytes + n - 2)) {
        return refused(WRONG_CRC);
    }
    struct command command = take_apart(bytes, n);
    unsigned refusal = content_refusal(catalogue, mode, &command);
    if (refusal != 0) {
        return refused(refusal);
    }
    *fields = pack_fields(&command);
    return accepted(command.n, 0, 0);
}

static uint64_t write_command(uint8_t catalogue, uint8_t mode, uint64_t fields, const uint8_t *further, size_t n,
                              uint8_t *room, size_t room_bytes)
{
    struct command command = unpack_fields(fields, further, n);
    if (!known_catalogue_and_mode(catalogue, mode) || command.sequence > 0x3FFF) {
        return refused(ARGUMENT);
    }
    if (n > longest_further(catalogue)) {
        return refused(LENGTH);
    }
    unsigned refusal = content_refusal(catalogue, mode, &command);
    if (refusal != 0) {
        return refused(refusal);
    }
    if (room_bytes < SHORTEST_COMMAND + n) {
        return refused(ROOM);
    }
    put_together(room, &command);
    put_word(room + COMMAND_HEADER + n, crc_bytes(CRC_START, room, COMMAND_HEADER + n));
    return accepted(SHORTEST_COMMAND + n, 0, 0);
}

/* The table's name is given by -DCALLS=.., so that the code of two compilers fits into one program. */
const struct calls CALLS = {
    .crc_words = crc_words,
    .crc_bytes = crc_bytes,
    .judge_unit = judge_unit,
    .check_unit = check_unit,
    .write_unit = write_unit,
    .survey = survey,
    .outline = outline,
    .read_frame = read_frame,
    .write_reel = write_reel,
    .read_reel = read_reel,
    .last_place = last_place,
    .read_packet = read_packet,
    .read_command = read_command,
    .write_command = write_command,
};

#endif
