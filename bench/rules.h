/* The rules of docs/FORMAT.md, for the plain and the best C implementation alike: what is small and takes no time. */
#ifndef RULES_H
#define RULES_H

#include <stdbool.h>
#include <stddef.h>
#include <stdint.h>
#include <string.h>

enum refusal {
    LENGTH = 1,
    NOTHING_THERE,
    ROOM,
    ARGUMENT,
    WRONG_CRC,
    PARITY,
    FIELD,
    TYPE,
    HEADER,
    QUALIFIER,
    FURTHER,
    MODE,
    REEL,
    CUT
};

enum {
    PARITY_WORDS = 8,
    DATA_WORDS = 256,
    UNIT_WORDS = PARITY_WORDS + DATA_WORDS,
    PACKET_WORDS = 32,
    PACKET_REST = 29,
    SHORTEST_CHUNK = 11,
    LONGEST_RECORDING = 32768,
    TRAILER_WORDS = 4,
    LONGEST_REEL = 38728,
    COMMAND_HEADER = 12,
    SHORTEST_COMMAND = 14,
    CRC_START = 0xFFFF
};

/* An answer is four words from the highest: the refusal and three parts, zeros on a refusal. */
static inline uint64_t refused(uint64_t refusal)
{
    return refusal << 48;
}

static inline uint64_t accepted(size_t a, size_t b, size_t c)
{
    return (uint64_t)(uint16_t)a << 32 | (uint64_t)(uint16_t)b << 16 | (uint16_t)c;
}

/* ---- chunks ---- */

struct recording {
    const uint16_t *at;
    size_t words;
    uint16_t sync;
};

/* a listed chunk; with zeros, the place where the first is searched for */
struct chunk {
    size_t place, end;
};

static inline bool is_health(uint16_t header)
{
    return header >> 15;
}

static inline unsigned camera_of(uint16_t header)
{
    return header >> 13 & 3;
}

static inline size_t size_of(uint16_t header)
{
    return header & 0x1FFF;
}

/* Sizes above 8,190 need no look of their own: none of them is a multiple of 32, or leaves 0 or at least 9. */
static inline bool legal_header(uint16_t header)
{
    size_t size = size_of(header);
    if (is_health(header)) {
        return camera_of(header) == 0 && size % PACKET_WORDS == 0 && size != 0;
    }
    return size != 0 && (size % UNIT_WORDS == 0 || size % UNIT_WORDS >= PARITY_WORDS + 1);
}

static inline bool legal_at(const struct recording *r, size_t place)
{
    return place + 1 < r->words && r->at[place] == r->sync && legal_header(r->at[place + 1]);
}

/* The end of the chunk that is confirmed at the place; 0 where none is. */
static inline size_t chunk_end(const struct recording *r, size_t place)
{
    if (!legal_at(r, place)) {
        return 0;
    }
    size_t end = place + 2 + size_of(r->at[place + 1]);
    return end == r->words || legal_at(r, end) ? end : 0;
}

/* The data words in the units of an image chunk's payload. */
static inline size_t data_words_of(size_t size)
{
    return size - PARITY_WORDS * ((size + UNIT_WORDS - 1) / UNIT_WORDS);
}

/* ---- parity ---- */

/* A row is loaded as the machine has it. With the low byte first, row r and column c of a unit have their parity at
   bits r ^ 15 and c ^ 15 of the two numbers that the first and the second four parity words make. */
_Static_assert(__BYTE_ORDER__ == __ORDER_LITTLE_ENDIAN__, "rows are loaded with the low byte first");

static inline uint64_t load_row(const uint16_t *words)
{
    uint64_t row;
    memcpy(&row, words, sizeof row);
    return row;
}

struct parities {
    uint64_t rows, columns;
};

/* The judge's answer from the parities that differ: the refusal, the case, the bit, the word, a byte each. */
static inline uint32_t judge(struct parities differ, size_t data_words)
{
    bool one_row = differ.rows != 0 && (differ.rows & (differ.rows - 1)) == 0;
    bool one_column = differ.columns != 0 && (differ.columns & (differ.columns - 1)) == 0;
    if (differ.rows == 0 && differ.columns == 0) {
        return 0;
    }
    if (one_row && differ.columns == 0) {
        unsigned bit = (unsigned)__builtin_ctzll(differ.rows);
        return 1u << 16 | (bit % 16) << 8 | bit / 16;
    }
    if (one_column && differ.rows == 0) {
        unsigned bit = (unsigned)__builtin_ctzll(differ.columns);
        return 1u << 16 | (bit % 16) << 8 | (4 + bit / 16);
    }
    if (one_row && one_column) {
        unsigned row = (unsigned)__builtin_ctzll(differ.rows) ^ 15;
        unsigned bit = (unsigned)__builtin_ctzll(differ.columns);
        unsigned word = 4 * row + bit / 16;
        if (word < data_words) {
            return 2u << 16 | (bit % 16) << 8 | word;
        }
    }
    return (uint32_t)PARITY << 24;
}

/* Puts right the data bit that an answer of the judge names, if it names one. */
static inline void repair(uint16_t *data, uint32_t answer)
{
    if (answer >> 16 == 2) {
        data[answer & 255] ^= (uint16_t)(1u << (answer >> 8 & 255));
    }
}

/* ---- health packets ---- */

static inline bool permitted_type(uint16_t type)
{
    return type <= 15 || type % 16 == 0;
}

/* Of two sound packets the newer, by how far the second's time lies after the first's: 1 or 2, 0 at half a turn. */
static inline unsigned newer(uint16_t first_time, uint16_t second_time)
{
    uint16_t after = (uint16_t)(second_time - first_time);
    if (after == 0x8000) {
        return 0;
    }
    return after != 0 && after < 0x8000 ? 2 : 1;
}

/* ---- commands ---- */

enum { EMERGENCY = 1, STANDBY = 2, OPERATING = 4 };

static const struct command_rule {
    uint8_t catalogues; /* bit 0: catalogue 1, bit 1: catalogue 2 */
    uint8_t modes;
    bool any_address, any_data;
} command_rules[14] = {
    [1] = {3, STANDBY | OPERATING, false, false},
    [2] = {3, EMERGENCY | STANDBY | OPERATING, true, true},
    [3] = {3, EMERGENCY | STANDBY | OPERATING, true, true},
    [4] = {3, EMERGENCY, true, false},
    [5] = {3, STANDBY | OPERATING, false, false},
    [6] = {3, STANDBY, false, false},
    [7] = {3, OPERATING, false, false},
    [8] = {1, STANDBY, false, false},
    [9] = {3, STANDBY | OPERATING, false, false},
    [10] = {3, OPERATING, false, false},
    [11] = {3, OPERATING, false, false},
    [12] = {2, OPERATING, false, false},
    [13] = {3, OPERATING, false, false},
};

enum { PATCH = 2, DUMP = 3, GOTO = 4, SUBMODE = 9 };

struct command {
    uint16_t sequence;
    uint8_t type, qualifier;
    uint16_t address, data;
    const uint8_t *further;
    size_t n;
};

static inline bool known_catalogue_and_mode(uint8_t catalogue, uint8_t mode)
{
    return (catalogue == 1 || catalogue == 2) && mode <= 2;
}

static inline size_t longest_further(uint8_t catalogue)
{
    return catalogue == 1 ? 213 : 48;
}

static inline bool permitted_qualifier(uint8_t catalogue, uint8_t type, uint8_t q)
{
    switch (type) {
    case PATCH: return q <= (catalogue == 1 ? 15 : 17);
    case DUMP: return q <= 15 || (catalogue == 2 && (q <= 17 || (q >= 32 && q <= 41) || (q >= 64 && q <= 73)));
    case GOTO: return q <= 15;
    case SUBMODE: return catalogue == 1 ? q <= 4 : q <= 8 && q != 2;
    default: return q == 0;
    }
}

static inline bool permitted_count(uint8_t catalogue, size_t n)
{
    return n == 8 || n == 16 || n == 32 || (catalogue == 1 ? n == 64 || n == 128 || n == 196 : n == 38);
}

static inline bool all_zero(const uint8_t *bytes, size_t n)
{
    uint8_t any = 0;
    for (size_t i = 0; i < n; i++) {
        any |= bytes[i];
    }
    return any == 0;
}

/* What the reader refuses in a command's content: 8, 10, 11 or 12, else 0. */
static inline unsigned content_refusal(uint8_t catalogue, uint8_t mode, const struct command *c)
{
    if (c->type >= 14 || !(command_rules[c->type].catalogues & catalogue)) {
        return TYPE;
    }
    const struct command_rule *rule = &command_rules[c->type];
    if (!permitted_qualifier(catalogue, c->type, c->qualifier) || (!rule->any_address && c->address != 0)
        || (!rule->any_data && c->data != 0)) {
        return QUALIFIER;
    }
    if (c->type == PATCH) {
        if (c->data == 0 || c->data > c->n) {
            return QUALIFIER;
        }
        if (!permitted_count(catalogue, c->n) || !all_zero(c->further + c->data, c->n - c->data)) {
            return FURTHER;
        }
    } else if (c->n != 0) {
        return FURTHER;
    }
    return rule->modes >> mode & 1 ? 0 : MODE;
}

static inline uint16_t get_word(const uint8_t *bytes)
{
    return (uint16_t)(bytes[0] << 8 | bytes[1]);
}

static inline void put_word(uint8_t *bytes, uint16_t word)
{
    bytes[0] = (uint8_t)(word >> 8);
    bytes[1] = (uint8_t)word;
}

/* ID, top bits of the sequence word and length field. */
static inline bool right_header(const uint8_t *bytes, size_t n)
{
    return get_word(bytes) == 0x13EE && bytes[2] >> 6 == 3 && get_word(bytes + 4) == n - 7;
}

static inline struct command take_apart(const uint8_t *bytes, size_t n)
{
    return (struct command){
        .sequence = get_word(bytes + 2) & 0x3FFF,
        .type = bytes[6],
        .qualifier = bytes[7],
        .address = get_word(bytes + 8),
        .data = get_word(bytes + 10),
        .further = bytes + COMMAND_HEADER,
        .n = n - SHORTEST_COMMAND,
    };
}

/* The fields as one number, four words from the highest: sequence count, type and qualifier, address, data. */
static inline uint64_t pack_fields(const struct command *c)
{
    return (uint64_t)c->sequence << 48 | (uint64_t)c->type << 40 | (uint64_t)c->qualifier << 32
        | (uint64_t)c->address << 16 | c->data;
}

static inline struct command unpack_fields(uint64_t fields, const uint8_t *further, size_t n)
{
    return (struct command){
        .sequence = (uint16_t)(fields >> 48),
        .type = (uint8_t)(fields >> 40),
        .qualifier = (uint8_t)(fields >> 32),
        .address = (uint16_t)(fields >> 16),
        .data = (uint16_t)fields,
        .further = further,
        .n = n,
    };
}

/* All of a command but its CRC. */
static inline void put_together(uint8_t *bytes, const struct command *c)
{
    put_word(bytes, 0x13EE);
    put_word(bytes + 2, (uint16_t)(0xC000 | c->sequence));
    put_word(bytes + 4, (uint16_t)(c->n + 7));
    bytes[6] = c->type;
    bytes[7] = c->qualifier;
    put_word(bytes + 8, c->address);
    put_word(bytes + 10, c->data);
    if (c->n != 0) {
        memcpy(bytes + COMMAND_HEADER, c->further, c->n);
    }
}

#endif
