#include "compare.h"

#include <stdio.h>
#include <string.h>

#include "inputs.h"
#include "tasks.h"

/* which answers came, by call and refusal number; a bit each */
static uint32_t met[WORKS];
static size_t compared;
static bool all_equal = true;

/* the refusals that each call gives by docs/FORMAT.md, and 0 for accepted: all of them must come, and no other */
static const uint32_t to_meet[WORKS] = {
    [CRC_WORDS] = 1 << 0,
    [CRC_BYTES] = 1 << 0,
    [JUDGE_UNIT] = 1 << 0 | 1 << 1 | 1 << 6,
    [CHECK_UNIT] = 1 << 0 | 1 << 1 | 1 << 6 | 1 << 3,
    [WRITE_UNIT] = 1 << 0 | 1 << 1 | 1 << 3,
    [SURVEY] = 1 << 0 | 1 << 1,
    [OUTLINE] = 1 << 0 | 1 << 1,
    [READ_FRAME] = 1 << 0 | 1 << 1 | 1 << 2 | 1 << 14 | 1 << 6 | 1 << 3,
    [WRITE_REEL] = 1 << 0 | 1 << 1 | 1 << 3,
    [READ_REEL] = 1 << 0 | 1 << 1 | 1 << 13,
    [LAST_PLACE] = 1 << 0 | 1 << 4 | 1 << 1 | 1 << 2,
    [READ_PACKET] = 1 << 0 | 1 << 1 | 1 << 5 | 1 << 7 | 1 << 3,
    [READ_COMMAND] = 1 << 0 | 1 << 4 | 1 << 1 | 1 << 9 | 1 << 5 | 1 << 8 | 1 << 10 | 1 << 11 | 1 << 12,
    [WRITE_COMMAND] = 1 << 0 | 1 << 4 | 1 << 1 | 1 << 8 | 1 << 10 | 1 << 11 | 1 << 12 | 1 << 3,
};

static uint64_t hold(struct task task)
{
    uint64_t answer = 0;
    if (!agree(&task, &answer)) {
        all_equal = false;
    }
    compared++;
    met[task.work] |= 1u << refusal_in(task.work, answer) % 32;
    return answer;
}

/* the part a of an answer */
static size_t part_a(uint64_t answer)
{
    return answer >> 32 & 0xFFFF;
}

/* ---- CRC ---- */

static void crcs(void)
{
    static uint16_t words[2048];
    static uint8_t bytes[2 * 2048];
    for (size_t count = 0; count <= 2048; count += count < 100 ? 1 : 97) {
        uint16_t start = count % 3 == 0 ? 0xFFFF : (uint16_t)below(65536);
        fill(words, count, 0);
        for (size_t i = 0; i < count; i++) {
            bytes[2 * i] = (uint8_t)(words[i] >> 8);
            bytes[2 * i + 1] = (uint8_t)words[i];
        }
        uint64_t of_words = hold((struct task){.work = CRC_WORDS, .start = start, .words = words, .count = count});
        if (of_words != slow_crc(start, bytes, 2 * count)) {
            printf("bench: crc_words of %zu words is not what the rule bit by bit gives\n", count);
            all_equal = false;
        }
        for (size_t less = 0; less <= 1 && less <= 2 * count; less++) {
            hold((struct task){.work = CRC_BYTES, .start = start, .bytes = bytes, .byte_count = 2 * count - less});
        }
    }
}

/* ---- parity units ---- */

static void unit_with_rooms(const uint16_t *unit, size_t words)
{
    hold((struct task){.work = JUDGE_UNIT, .words = unit, .count = words});
    size_t data = words > 8 ? words - 8 : 0;
    for (size_t room = data > 0 ? data - 1 : 0; room <= data + 1; room++) {
        hold((struct task){.work = CHECK_UNIT, .words = unit, .count = words, .room = room});
    }
}

static void units(void)
{
    uint16_t unit[270];
    for (size_t words = 0; words <= 268; words++) {
        fill(unit, words, 0);
        unit_with_rooms(unit, words);
        if (words < 9 || words > 264) {
            continue;
        }
        put_parity(unit, words - 8);
        unit_with_rooms(unit, words);
        /* every single flip in some lengths, in the others a few; then more flips */
        size_t step = words == 9 || words == 13 || words == 264 ? 1 : 61;
        for (size_t bit = 0; bit < 16 * words; bit += step) {
            flip(unit, bit);
            unit_with_rooms(unit, words);
            flip(unit, bit);
        }
        for (size_t flips = 0; flips < 6; flips++) {
            flip(unit, below((uint32_t)(16 * (flips % 2 ? 8 : words))));
            unit_with_rooms(unit, words);
        }
    }
    /* one row and one column of parity that cross in every word, sent or not */
    for (size_t data = 1; data <= 256; data += 5) {
        memset(unit, 0, sizeof unit);
        for (size_t row = 0; row < 64; row++) {
            size_t column = below(64);
            flip(unit, row ^ 15);
            flip(unit, 64 + column);
            unit_with_rooms(unit, 8 + data);
            flip(unit, row ^ 15);
            flip(unit, 64 + column);
        }
    }
}

static void written_units(void)
{
    uint16_t data[260];
    for (size_t words = 0; words <= 258; words++) {
        fill(data, words, 0);
        for (size_t room = words + 7; room <= words + 9; room++) {
            hold((struct task){.work = WRITE_UNIT, .words = data, .count = words, .room = room});
        }
        hold((struct task){.work = WRITE_UNIT, .words = data, .count = words, .room = 0});
    }
}

/* ---- packets ---- */

static void packets(void)
{
    uint16_t packet[40];
    for (uint32_t type = 0; type < 65536; type += type < 70 ? 1 : 251) {
        fill(packet, 40, 0);
        put_packet(packet, (uint16_t)type, (uint16_t)below(65536));
        for (size_t room = 28; room <= 30; room++) {
            hold((struct task){.work = READ_PACKET, .words = packet, .count = 32, .room = room});
        }
        flip(packet, below(32 * 16));
        hold((struct task){.work = READ_PACKET, .words = packet, .count = 32, .room = 29});
    }
    for (size_t words = 0; words <= 40; words++) {
        hold((struct task){.work = READ_PACKET, .words = packet, .count = words, .room = 29});
    }
}

/* ---- recordings ---- */

enum { LIMIT = 32768, MEMORY = LIMIT + 20000 };

/* Some of these are legal header words too, and one is the word that noise has most often. */
static const uint16_t sync_words[] = {0x5AF3, 0xEB90, 0x0000, 0xFFFF, 0x2009, 0x8020};

static size_t legal_image_size(void)
{
    static const size_t edges[] = {9, 10, 263, 264, 273, 527, 528, 537, 8183, 8184};
    if (below(3) != 0) {
        return edges[below(below(4) ? 8 : 10)];
    }
    size_t size = 1 + below(below(8) ? 600 : 8184);
    return size % 264 == 0 || size % 264 >= 9 ? size : size + 9;
}

/* A frame, mostly with the packet that completes it; answers its words. */
static size_t put_frame(uint16_t *at, uint16_t sync)
{
    unsigned camera = 1 + below(3);
    size_t words = 0, chunks = 1 + below(4);
    for (size_t i = 0; i < chunks; i++) {
        bool whole = i + 1 < chunks && below(20) != 0;
        words += put_image(at + words, sync, i == 0 ? camera : 0, whole ? 264 * (1 + below(3)) : legal_image_size());
    }
    if (below(8) == 0) {
        flip(at + 2, below(264));
    }
    if (below(5) == 0) {
        flip(at + 2, below(1000));
    }
    uint16_t type = (uint16_t)(3 + (below(6) ? camera : 1 + below(4)));
    words += put_health(at + words, sync, 32 * (1 + below(3)), type, (uint16_t)below(65536));
    return words;
}

/* Noise in which sync words and headers stand that are legal, illegal or never confirmed. */
static size_t put_noise(uint16_t *at, uint16_t sync)
{
    size_t words = 1 + below(40);
    for (size_t i = 0; i < words; i++) {
        switch (below(4)) {
        case 0: at[i] = sync; break;
        case 1: at[i] = (uint16_t)(below(4) << 13 | (9 + below(30))); break;
        case 2: at[i] = health_header(32 * below(3)); break;
        default: at[i] = (uint16_t)below(65536); break;
        }
    }
    return words;
}

static size_t put_piece(uint16_t *at, uint16_t sync)
{
    switch (below(7)) {
    case 0: return put_noise(at, sync);
    case 1:
    case 2: return put_image(at, sync, below(4), legal_image_size());
    case 3:
        return put_health(at, sync, 32 * (1 + below(below(9) ? 6 : 255)), (uint16_t)below(18), (uint16_t)below(65536));
    case 4: return put_image(at, sync, below(4), 9 + below(4));
    default: return put_frame(at, sync);
    }
}

/* A recording of about so many words: pieces one after the other, then damage. */
static size_t make_recording(uint16_t *words, size_t about, uint16_t sync)
{
    size_t count = 0;
    while (count < about) {
        size_t more = put_piece(words + count, sync);
        if (count + more > LIMIT) {
            break;
        }
        count += more;
    }
    for (size_t flips = below(4) * below(4); flips > 0 && count > 0; flips--) {
        flip(words, below((uint32_t)(16 * count)));
    }
    if (below(3) == 0 && count > 0) {
        size_t lost = below((uint32_t)count);
        memmove(words + lost, words + lost + 1, (count - lost - 1) * sizeof *words);
        count--;
    }
    return below(3) == 0 ? count - below((uint32_t)(count + 1) / 4 + 1) : count;
}

/* Packets back to back, some of them damaged, with times near a given one and near half a turn from it. */
static size_t make_health(uint16_t *words, size_t packets, uint16_t time)
{
    for (size_t i = 0; i < packets; i++) {
        uint16_t near = (uint16_t)(time + below(3) - 1 + (below(2) ? 0x8000 : 0));
        put_packet(words + 32 * i, (uint16_t)(1 + below(16)), near);
        if (below(4) == 0) {
            flip(words + 32 * i, below(512));
        }
    }
    return 32 * packets;
}

static void newest(const uint16_t *science, size_t words, uint16_t sync)
{
    static uint16_t health[LIMIT];
    for (uint16_t type = 0; type <= 17; type++) {
        struct task task = {
            .work = LAST_PLACE, .words = science, .count = words, .sync = sync, .health = health, .type = type
        };
        uint64_t alone = hold(task);
        if (alone >> 48 == 0) {
            task.health_count = make_health(health, below(20), science[(alone >> 16 & 0xFFFF) + 2]);
        } else {
            task.health_count = make_health(health, below(4), 7);
        }
        hold(task);
        task.health_count += 1 + below(31);
        hold(task);
    }
}

/* Makes the CRC of a reel right, if the trailer's numbers are the reel's. */
static bool put_trailer_crc(uint16_t *reel, size_t words)
{
    static uint8_t bytes[2 * LARGEST_ROOM];
    size_t index = words - 4 - 2 * (size_t)reel[words - 4], covered = 0;
    if (index != reel[words - 3]) {
        return false;
    }
    for (size_t i = index; i < words - 2; i++) {
        bytes[covered++] = (uint8_t)(reel[i] >> 8);
        bytes[covered++] = (uint8_t)reel[i];
    }
    reel[words - 2] = slow_crc(0xFFFF, bytes, covered);
    return true;
}

static void reel_readings(uint16_t *reel, size_t words, uint16_t sync)
{
    struct task task = {.work = READ_REEL, .words = reel, .count = words, .sync = sync};
    hold(task);
    task.sync++;
    hold(task);
    task.sync = sync;
    /* a wrong word in the index or the trailer, with the CRC that was there and with one that is right again */
    for (size_t back = 1; back <= 12 && back <= words; back++) {
        uint16_t *wrong = reel + words - back, right = *wrong, crc = reel[words - 2];
        *wrong ^= (uint16_t)(1u << below(16));
        hold(task);
        if (back != 2 && put_trailer_crc(reel, words)) {
            hold(task);
            reel[words - 2] = crc;
        }
        *wrong = right;
        task.count = words - back;
        hold(task);
        task.count = words;
    }
}

static size_t reels(const uint16_t *recording, size_t words, uint16_t sync, uint16_t *reel)
{
    struct task task = {.work = WRITE_REEL, .words = recording, .count = words, .sync = sync, .room = LARGEST_ROOM};
    size_t reel_words = part_a(hold(task));
    memcpy(reel, lent.words, reel_words * sizeof *reel);
    for (task.room = reel_words - 1; task.room <= reel_words + 1; task.room++) {
        hold(task);
    }
    task.room = words;
    hold(task);
    return reel_words;
}

static void frame_at(const uint16_t *recording, size_t words, uint16_t sync, size_t place)
{
    struct task task = {
        .work = READ_FRAME, .words = recording, .count = words, .sync = sync, .place = place, .room = LARGEST_ROOM
    };
    uint64_t answer = hold(task);
    size_t data = answer >> 16 & 0xFFFF;
    if (data > 0) {
        for (task.room = data - 1; task.room <= data + 1; task.room++) {
            hold(task);
        }
    }
}

static void recording_calls(const uint16_t *recording, size_t words, uint16_t sync)
{
    static uint16_t reel[LARGEST_ROOM];
    hold((struct task){.work = SURVEY, .words = recording, .count = words, .sync = sync});
    hold((struct task){.work = OUTLINE, .words = recording, .count = words, .sync = sync});
    size_t reel_words = reels(recording, words, sync, reel);
    /* frames are asked for at some of the listed chunks and at places between */
    size_t entries = reel[reel_words - 4];
    for (size_t i = 0; i < 12 && entries > 0; i++) {
        frame_at(recording, words, sync, reel[words + 2 * below((uint32_t)entries)]);
    }
    for (size_t i = 0; i < 4; i++) {
        frame_at(recording, words, sync, below((uint32_t)words + 3));
    }
    newest(recording, words, sync);
    reel_readings(reel, reel_words, sync);
}

static void recordings(void)
{
    static uint16_t words[MEMORY];
    for (size_t i = 0; i < 400; i++) {
        uint16_t sync = sync_words[i % 6];
        size_t about = i % 20 == 0 ? LIMIT : below(i % 5 == 0 ? 12000 : 1500);
        size_t count = make_recording(words, about, sync);
        recording_calls(words, count, sync);
    }
    /* short recordings of few different words, where headers stand close and into each other */
    for (size_t i = 0; i < 1500; i++) {
        static const uint16_t often[] = {0x2009, 0x2009, 0x8020, 0x000A, 0x0000};
        size_t count = below(90);
        for (size_t j = 0; j < count; j++) {
            words[j] = often[below(5)];
        }
        recording_calls(words, count, 0x2009);
    }
}

/* Header words, each of a chunk that ends with the recording: all with small sizes and large ones, and some between. */
static void headers(void)
{
    static uint16_t words[2 + 8191] = {0x5AF3};
    for (size_t kind_and_camera = 0; kind_and_camera < 8; kind_and_camera++) {
        for (size_t size = 0; size < 8192; size += size < 540 || size > 8150 ? 1 : 11) {
            words[1] = (uint16_t)(kind_and_camera << 13 | size);
            hold((struct task){.work = SURVEY, .words = words, .count = 2 + size, .sync = 0x5AF3});
        }
    }
}

static void too_long(void)
{
    static uint16_t words[MEMORY];
    for (size_t count = LIMIT - 1; count <= LIMIT + 2; count++) {
        fill(words, count, 0x5AF3);
        size_t first = put_image(words, 0x5AF3, 1, count % 2 ? 264 : 9);
        put_health(words + first, 0x5AF3, 32, 4, 1);
        /* one chunk that ends with the recording */
        put_image(words + count - 11, 0x5AF3, 2, 9);
        struct task task = {
            .words = words, .count = count, .sync = 0x5AF3, .room = LARGEST_ROOM, .health = words, .type = 4
        };
        for (enum work work = SURVEY; work <= LAST_PLACE; work++) {
            task.work = work;
            hold(task);
        }
    }
    for (size_t count = LIMIT - 32; count <= LIMIT + 32; count++) {
        hold((struct task){.work = LAST_PLACE, .words = words, .health = words, .health_count = count, .type = 4});
    }
    /* reels in which all agrees but that the recording may be too long */
    for (size_t count = LIMIT - 1; count <= LIMIT + 2; count++) {
        fill(words, count, 0x5AF3);
        words[count] = 0;
        words[count + 1] = (uint16_t)count;
        words[count + 3] = 1;
        put_trailer_crc(words, count + 4);
        hold((struct task){.work = READ_REEL, .words = words, .count = count + 4, .sync = 0x5AF3});
    }
    for (size_t count = 38726; count <= 38730; count++) {
        hold((struct task){.work = READ_REEL, .words = words, .count = count, .sync = 0x5AF3});
    }
    for (size_t count = 0; count <= 6; count++) {
        hold((struct task){.work = READ_REEL, .words = words, .count = count, .sync = 0x5AF3});
    }
}

/* The longest index: as many chunks as a recording can hold. */
static void most_chunks(void)
{
    static uint16_t words[MEMORY];
    size_t count = 0;
    while (count + 11 + 11 <= LIMIT) {
        count += put_image(words + count, 0x5AF3, below(4), 9);
    }
    count += put_image(words + count, 0x5AF3, 1, LIMIT - count - 2);
    recording_calls(words, count, 0x5AF3);
}

/* ---- commands ---- */

static uint64_t fields_of(uint16_t sequence, uint8_t type, uint8_t qualifier, uint16_t address, uint16_t data)
{
    return (uint64_t)sequence << 48 | (uint64_t)type << 40 | (uint64_t)qualifier << 32 | (uint64_t)address << 16 | data;
}

/* One content for writer and reader. */
static void content(uint8_t catalogue, uint8_t mode, uint64_t fields, const uint8_t *further, size_t n)
{
    uint8_t command[300];
    size_t bytes = put_command(command, fields & 0x3FFFFFFFFFFFFFFF, further, n);
    hold((struct task){
        .work = READ_COMMAND, .catalogue = catalogue, .mode = mode, .bytes = command, .byte_count = bytes
    });
    for (size_t room = bytes - 1; room <= bytes + 1; room++) {
        hold((struct task){.work = WRITE_COMMAND, .catalogue = catalogue, .mode = mode, .fields = fields,
                           .bytes = further, .byte_count = n, .room = room});
    }
}

static void without_further(void)
{
    static const uint8_t none[1] = {0};
    for (uint8_t catalogue = 0; catalogue <= 3; catalogue++) {
        for (uint8_t mode = 0; mode <= 3; mode++) {
            for (uint8_t type = 0; type <= 15; type++) {
                for (uint8_t qualifier = 0; qualifier < 80; qualifier++) {
                    uint16_t sequence = below(9) ? (uint16_t)below(0x4000) : 0x4000;
                    uint16_t address = below(3) ? 0 : (uint16_t)below(65536);
                    uint16_t data = below(3) ? 0 : (uint16_t)below(65536);
                    content(catalogue, mode, fields_of(sequence, type, qualifier, address, data), none, 0);
                }
            }
        }
    }
}

static void with_further(void)
{
    uint8_t further[230];
    for (uint8_t catalogue = 1; catalogue <= 2; catalogue++) {
        for (size_t n = 0; n <= 216; n++) {
            uint16_t lengths[] = {0, 1, (uint16_t)(n / 2), (uint16_t)n, (uint16_t)(n + 1), 0xFFFF};
            for (size_t i = 0; i < 6; i++) {
                uint16_t length = lengths[i];
                for (size_t j = 0; j < n; j++) {
                    further[j] = j < length ? (uint8_t)below(256) : 0;
                }
                uint8_t type = below(10) ? 2 : (uint8_t)below(14);
                uint64_t fields = fields_of(5, type, (uint8_t)below(19), (uint16_t)below(65536), length);
                content(catalogue, (uint8_t)below(3), fields, further, n);
                if (n > 0) {
                    further[n - 1] ^= 1;
                    content(catalogue, (uint8_t)below(3), fields, further, n);
                }
            }
        }
    }
}

static void damaged_commands(void)
{
    uint8_t command[300], further[230] = {0};
    for (size_t i = 0; i < 6000; i++) {
        static const size_t counts[] = {0, 8, 16, 32, 38, 48, 64, 128, 196, 213};
        size_t n = counts[below(10)];
        further[0] = (uint8_t)below(256);
        uint8_t type = n > 0 ? 2 : (uint8_t)below(14);
        size_t bytes = put_command(command, fields_of((uint16_t)below(0x4000), type, 0, 0, n > 0), further, n);
        size_t bit = below((uint32_t)(8 * bytes));
        command[bit / 8] ^= (uint8_t)(1u << bit % 8);
        if (below(2) != 0) {
            /* only the CRC is put right again */
            uint16_t crc = slow_crc(0xFFFF, command, bytes - 2);
            command[bytes - 2] = (uint8_t)(crc >> 8);
            command[bytes - 1] = (uint8_t)crc;
        }
        hold((struct task){.work = READ_COMMAND, .catalogue = (uint8_t)(1 + below(2)), .mode = (uint8_t)below(3),
                           .bytes = command, .byte_count = below(8) ? bytes : below((uint32_t)bytes)});
    }
    for (size_t bytes = 0; bytes <= 300; bytes++) {
        hold((struct task){.work = READ_COMMAND, .catalogue = 1, .bytes = command, .byte_count = bytes});
        hold((struct task){.work = READ_COMMAND, .catalogue = 2, .bytes = command, .byte_count = bytes});
    }
}

bool compare(void)
{
    crcs();
    units();
    written_units();
    packets();
    headers();
    recordings();
    too_long();
    most_chunks();
    without_further();
    with_further();
    damaged_commands();
    for (enum work work = CRC_WORDS; work < WORKS; work++) {
        if (met[work] != to_meet[work]) {
            printf("bench: %s gave the refusals %X, to be met were %X; a bit each\n", work_names[work], met[work],
                   to_meet[work]);
            all_equal = false;
        }
    }
    printf("%zu calls compared, on inputs that are sound, damaged and at every limit: %s\n", compared,
           all_equal ? "all answers and rooms are equal" : "NOT all is equal");
    return all_equal;
}
