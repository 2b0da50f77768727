#include "rows.h"

#include <stdio.h>
#include <stdlib.h>
#include <string.h>

#include "inputs.h"

enum { SYNC = 0x5AF3, WHOLE = 32768, HEALTH_CHUNK = 34, ASKED = 4, OTHER = 5 };

static struct row *next_row;

static uint64_t answer(uint64_t a, uint64_t b, uint64_t c)
{
    return a << 32 | b << 16 | c;
}

static void add(const char *name, struct task task, size_t per, uint64_t want)
{
    snprintf(next_row->name, sizeof next_row->name, "%s", name);
    next_row->task = task;
    next_row->per = per;
    next_row->want = want;
    next_row++;
}

/* The same with the number of words in the name. */
static void add_words(const char *name, struct task task, uint64_t want)
{
    char full[64];
    if (task.count < 1000) {
        snprintf(full, sizeof full, "%s, %zu words", name, task.count);
    } else {
        snprintf(full, sizeof full, "%s, %zu,%03zu words", name, task.count / 1000, task.count % 1000);
    }
    add(full, task, task.count, want);
}

/* Memory for an input; it is kept until the program ends. */
static uint16_t *memory(size_t words)
{
    void *got = calloc(words, sizeof(uint16_t));
    if (got == NULL) {
        fprintf(stderr, "bench: no memory\n");
        exit(1);
    }
    return got;
}

/* ---- CRC, units, packets ---- */

static void crc_of_words(size_t count)
{
    uint16_t *words = memory(count), *swapped = memory(count);
    fill(words, count, SYNC);
    for (size_t i = 0; i < count; i++) {
        swapped[i] = (uint16_t)(words[i] << 8 | words[i] >> 8);
    }
    uint64_t want = slow_crc(0xFFFF, (const uint8_t *)swapped, 2 * count);
    add_words("CRC", (struct task){.work = CRC_WORDS, .start = 0xFFFF, .words = words, .count = count}, want);
}

static void crc_of_bytes(const char *name, size_t count)
{
    uint16_t *words = memory(count);
    fill(words, count, SYNC);
    const uint8_t *bytes = (const uint8_t *)words;
    struct task task = {.work = CRC_BYTES, .start = 0xFFFF, .bytes = bytes, .byte_count = count};
    add(name, task, count, slow_crc(0xFFFF, bytes, count));
}

static void units(void)
{
    uint16_t *sound = memory(264), *flipped = memory(264);
    fill(sound, 264, SYNC);
    put_parity(sound, 256);
    memcpy(flipped, sound, 264 * sizeof *sound);
    flip(flipped + 8, 16 * 100 + 3);
    add("unit check, sound", (struct task){.work = CHECK_UNIT, .words = sound, .count = 264, .room = 256}, 256, 0);
    add("unit check, a flipped data bit",
        (struct task){.work = CHECK_UNIT, .words = flipped, .count = 264, .room = 256}, 256, 0x00020364);
    add("unit writing", (struct task){.work = WRITE_UNIT, .words = sound + 8, .count = 256, .room = 264}, 256,
        answer(264, 0, 0));
}

static void packet(void)
{
    uint16_t *words = memory(32);
    put_packet(words, 9, 77);
    add("packet reading", (struct task){.work = READ_PACKET, .words = words, .count = 32, .room = 29}, 32,
        answer(9, 77, 0));
}

/* ---- recordings ---- */

static struct task of_recording(enum work work, const uint16_t *words, size_t count, uint16_t sync)
{
    return (struct task){.work = work, .words = words, .count = count, .sync = sync, .room = LARGEST_ROOM};
}

static void survey_noise(size_t count)
{
    uint16_t *words = memory(count);
    fill(words, count, SYNC);
    add_words("survey, noise", of_recording(SURVEY, words, count, SYNC), answer(0, count, 0));
}

/* The sync word everywhere; as a header word it is not legal. */
static void survey_syncs(void)
{
    enum { ILLEGAL_SYNC = 0xEB90 };
    uint16_t *words = memory(WHOLE);
    for (size_t i = 0; i < WHOLE; i++) {
        words[i] = ILLEGAL_SYNC;
    }
    add_words("survey, sync words", of_recording(SURVEY, words, WHOLE, ILLEGAL_SYNC), answer(0, WHOLE, 0));
}

/* Headers at all even places whose chunks end at odd ones. */
static void survey_headers(void)
{
    uint16_t *words = memory(WHOLE);
    for (size_t i = 0; i < WHOLE; i++) {
        words[i] = i % 2 == 0 ? SYNC : image_header(1, 9);
    }
    add_words("survey, headers", of_recording(SURVEY, words, WHOLE, SYNC), answer(0, WHOLE, 0));
}

/* Shortest image chunks end to end; the last one takes up the rest. */
static uint16_t *shortest_chunks(size_t *chunks)
{
    uint16_t *words = memory(WHOLE);
    size_t count = 0;
    for (*chunks = 1; count + 22 <= WHOLE; ++*chunks) {
        count += put_image(words + count, SYNC, 1 + count % 3, 9);
    }
    put_image(words + count, SYNC, 1, WHOLE - count - 2);
    return words;
}

/* Image and health chunks by turns, the shortest of each kind; the last image chunk takes up the rest. */
static uint16_t *kinds_by_turns(size_t *pairs)
{
    uint16_t *words = memory(WHOLE);
    size_t count = 0;
    for (*pairs = 0; count + 11 + HEALTH_CHUNK + 11 <= WHOLE; ++*pairs) {
        count += put_image(words + count, SYNC, 1, 9);
        count += put_health(words + count, SYNC, 32, OTHER, 0);
    }
    put_image(words + count, SYNC, 1, WHOLE - count - 2);
    return words;
}

/* Each chunk is confirmed by the header behind it, which is not confirmed itself: two skipped words. */
static uint16_t *chunks_with_gaps(size_t *chunks)
{
    uint16_t *words = memory(WHOLE);
    size_t count = 0;
    for (*chunks = 0; count + 13 <= WHOLE; ++*chunks) {
        count += put_image(words + count, SYNC, 1, 9);
        words[count++] = SYNC;
        words[count++] = image_header(2, 9);
    }
    return words;
}

/* What a day brings: frames, health chunks and noise; the chunk before the noise is lost. */
static uint16_t *ordinary_mix(void)
{
    uint16_t *words = memory(WHOLE);
    size_t count = 0;
    while (count + 4000 < WHOLE) {
        unsigned camera = 1 + below(3);
        count += put_image(words + count, SYNC, camera, 264 * (1 + below(4)));
        count += put_image(words + count, SYNC, 0, 264 * (1 + below(3)));
        count += put_image(words + count, SYNC, 0, 264 + 9 + below(200));
        count += put_health(words + count, SYNC, 32 * (1 + below(3)), (uint16_t)(3 + camera), (uint16_t)count);
        if (below(3) == 0) {
            size_t noise = 1 + below(200);
            fill(words + count, noise, SYNC);
            count += noise;
        }
    }
    fill(words + count, WHOLE - count, SYNC);
    return words;
}

static void surveys_and_outlines(void)
{
    size_t chunks, pairs, gaps;
    uint16_t *shortest = shortest_chunks(&chunks), *turns = kinds_by_turns(&pairs), *gap = chunks_with_gaps(&gaps);
    survey_noise(WHOLE);
    survey_syncs();
    survey_headers();
    add_words("survey, shortest chunks", of_recording(SURVEY, shortest, WHOLE, SYNC), answer(chunks, 0, 1));
    add_words("outline, one run", of_recording(OUTLINE, shortest, WHOLE, SYNC), answer(1, 0, 0));
    add_words("outline, kinds by turns", of_recording(OUTLINE, turns, WHOLE, SYNC), answer(pairs + 1, pairs, 0));
    add_words("outline, gaps", of_recording(OUTLINE, gap, WHOLE, SYNC), answer(gaps, 0, 0));
}

/* ---- reels ---- */

static void reel_of(const char *name, const uint16_t *words)
{
    char full[64];
    struct task writing = of_recording(WRITE_REEL, words, WHOLE, SYNC);
    size_t count = perform(&plain_gcc, &writing, 1) >> 32;
    uint16_t *reel = memory(count);
    memcpy(reel, lent.words, count * sizeof *reel);
    size_t entries = (count - WHOLE - 4) / 2;
    snprintf(full, sizeof full, "reel writing, %s", name);
    add(full, writing, WHOLE, answer(count, 0, 0));
    snprintf(full, sizeof full, "reel reading, %s", name);
    add(full, of_recording(READ_REEL, reel, count, SYNC), WHOLE, answer(WHOLE, entries, 0));
}

static void reels(void)
{
    size_t chunks;
    reel_of("shortest chunks", shortest_chunks(&chunks));
    reel_of("an ordinary mix", ordinary_mix());
}

/* ---- frames ---- */

/* One bit of the data in each unit. */
static void flip_each(uint16_t *payload, size_t size)
{
    for (size_t unit = 0; unit < size; unit += 264) {
        flip(payload + unit + 8, below((uint32_t)(16 * ((size - unit < 264 ? size - unit : 264) - 8))));
    }
}

/* A complete frame that fills the recording, its chunks as large as is said but for the last. */
static void frame(const char *name, size_t count, size_t size, bool damaged)
{
    uint16_t *words = memory(count);
    size_t chunks = 0, data = 0, at = 0;
    while (at + HEALTH_CHUNK < count) {
        size_t left = count - HEALTH_CHUNK - at - 2, its = left < size ? left : size;
        size_t more = put_image(words + at, SYNC, at == 0, its);
        if (damaged) {
            flip_each(words + at + 2, its);
        }
        at += more;
        chunks++;
        data += its - (its + 263) / 264 * 8;
    }
    put_health(words + at, SYNC, 32, 4, 0);
    add_words(name, of_recording(READ_FRAME, words, count, SYNC), answer(chunks, data, 1 + 4 + 8));
}

static void frames(void)
{
    size_t large = 3 * (2 + 8184) + HEALTH_CHUNK, small = 123 * (2 + 264) + HEALTH_CHUNK;
    frame("frame of 3 chunks", large, 8184, false);
    frame("frame of 123 chunks", small, 264, false);
    frame("frame, flips in all units", small, 264, true);
}

/* ---- the last packet ---- */

/* Makes the CRC wrong and leaves the type. */
static void spoil(uint16_t *packets, size_t words)
{
    for (size_t packet = 0; packet < words; packet += 32) {
        flip(packets + packet + 2, below(30 * 16));
    }
}

static void last_in_science(const char *name, size_t count, uint16_t type, bool sound)
{
    uint16_t *words = memory(count);
    size_t at = 0;
    while (at + HEALTH_CHUNK + 11 <= count) {
        put_health(words + at, SYNC, 32, type, (uint16_t)at);
        if (!sound) {
            spoil(words + at + 2, 32);
        }
        at += HEALTH_CHUNK;
    }
    put_image(words + at, SYNC, 1, count - at - 2);
    struct task task = of_recording(LAST_PLACE, words, count, SYNC);
    task.type = ASKED;
    task.health = words;
    add_words(name, task, type == ASKED && sound ? answer(1, at - 32, 0) : (uint64_t)2 << 48);
}

static void last_in_health(const char *name, uint16_t type, bool sound)
{
    uint16_t *words = memory(WHOLE);
    for (size_t at = 0; at < WHOLE; at += 32) {
        put_packet(words + at, type, (uint16_t)at);
    }
    if (!sound) {
        spoil(words, WHOLE);
    }
    struct task task = {
        .work = LAST_PLACE, .words = words, .sync = SYNC, .health = words, .health_count = WHOLE, .type = ASKED
    };
    add(name, task, WHOLE, type == ASKED && sound ? answer(2, WHOLE - 32, 0) : (uint64_t)2 << 48);
}

static void last_packets(void)
{
    last_in_science("last in science, all sound", WHOLE, ASKED, true);
    last_in_science("last in science, other types", WHOLE, OTHER, true);
    last_in_science("last in science, all unsound", WHOLE, ASKED, false);
    last_in_health("last in health, all sound", ASKED, true);
    last_in_health("last in health, other types", OTHER, true);
    last_in_health("last in health, all unsound", ASKED, false);
}

/* ---- commands ---- */

/* A command to read in catalogue 2; one of 62 bytes is the longest that is read, and its further bytes are refused. */
static void command(const char *name, uint64_t fields, size_t n, uint64_t want)
{
    uint8_t *bytes = (uint8_t *)memory(100), *further = (uint8_t *)memory(100);
    for (size_t i = 0; i < n; i++) {
        further[i] = (uint8_t)below(256);
    }
    struct task task = {.work = READ_COMMAND, .catalogue = 2, .mode = 1, .bytes = bytes};
    task.byte_count = put_command(bytes, fields, further, n);
    add(name, task, task.byte_count, want);
}

static void commands(void)
{
    uint64_t submode = (uint64_t)5 << 48 | (uint64_t)9 << 40 | (uint64_t)3 << 32;
    uint64_t patch = (uint64_t)6 << 48 | (uint64_t)2 << 40 | (uint64_t)1 << 32 | 0x1F40 << 16;
    command("command reading, 14 bytes", submode, 0, 0);
    command("command reading, 52 bytes", patch | 38, 38, answer(38, 0, 0));
    command("command reading, 62 bytes, refused", patch | 48, 48, (uint64_t)11 << 48);
    static const uint8_t none[1] = {0};
    struct task writing = {
        .work = WRITE_COMMAND, .catalogue = 2, .mode = 1, .fields = submode, .bytes = none, .room = 14
    };
    add("command writing, 14 bytes", writing, 14, answer(14, 0, 0));
}

/* ---- growth, and the limit ---- */

static void growth(void)
{
    static const size_t sizes[] = {1024, 4096, 16384, 32768};
    next_row->table = "Growth: the same work on longer inputs, again per word. memcpy is the memory's own speed.";
    for (size_t i = 0; i < 4; i++) {
        survey_noise(sizes[i]);
    }
    for (size_t i = 0; i < 4; i++) {
        crc_of_words(sizes[i]);
    }
    for (size_t i = 0; i < 4; i++) {
        frame("frame", sizes[i], 8184, false);
    }
    for (size_t i = 0; i < 4; i++) {
        last_in_science("last in science, all unsound", sizes[i], ASKED, false);
    }
    for (size_t i = 0; i < 4; i++) {
        uint16_t *words = memory(sizes[i]);
        fill(words, sizes[i], SYNC);
        add_words("memcpy", (struct task){.work = COPY_WORDS, .words = words, .count = sizes[i]}, 0);
    }
}

size_t make_rows(struct row rows[MOST_ROWS])
{
    next_row = rows;
    next_row->table = "Nanoseconds per word, or per byte where bytes are named; of a unit per data word.";
    crc_of_words(30);
    crc_of_words(264);
    crc_of_words(WHOLE);
    crc_of_bytes("CRC, 14 bytes", 14);
    crc_of_bytes("CRC, 62 bytes", 62);
    crc_of_bytes("CRC, 528 bytes", 528);
    crc_of_bytes("CRC, 65,536 bytes", 65536);
    units();
    surveys_and_outlines();
    frames();
    reels();
    last_packets();
    packet();
    commands();
    growth();
    return (size_t)(next_row - rows);
}
