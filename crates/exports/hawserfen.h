/* Hawserfen for C code: calls of docs/FORMAT.md, which has their rules. `tools/staticlib` proves them and writes
   target/staticlib/libexports.a, for x86-64 Linux. Nothing else has to be linked.

   A word is a number of the machine, its bit 15 the most significant. A recording's bytes have the high byte of each
   word first, so on x86-64 they have to be exchanged.

   What the caller owes: each pointer is not null and on an address that its type asks for, even for words, and as many
   words or bytes as are said stand there; a room, or the fields of a command, and what else is lent do not overlap;
   during the call nobody else writes to what is lent, and nobody else reads a room, or the fields. Nothing checks this.
   Any number of words or bytes, and any of them, are good.

   A room gets the result at its front. The rest of it, and on a refusal all of it, stays as it was. */
#ifndef HAWSERFEN_H
#define HAWSERFEN_H

#include <stddef.h>
#include <stdint.h>

/* ---- the check of a parity unit: the answer is one number of four bytes, from the highest: the refusal, the case, the
   bit, the word */

/* 0 accepted. Else the first of these that applies: 1 the unit has not 9 to 264 words; 6 its parity is neither sound nor
   as one flipped bit leaves it; 3 the room has fewer words than the unit has data. The other bytes are 0 then. */
#define HAWSERFEN_REFUSAL(answer) ((answer) >> 24)
/* 0 sound; 1 a parity bit was hit; 2 a data bit was hit */
#define HAWSERFEN_CASE(answer) ((answer) >> 16 & 255)
/* the bit that was hit, and the parity word or the data word, from 0; 0 if sound */
#define HAWSERFEN_BIT(answer) ((answer) >> 8 & 255)
#define HAWSERFEN_WORD(answer) ((answer) & 255)

/* The unit judge: what stands in a unit. It asks for no room, and never answers 3. */
uint32_t hawserfen_judge_unit(const uint16_t *unit, size_t unit_words);

/* The unit checker: the same, and the unit's data go to the room, the data bit that was hit put right: as many words as the
   unit has after its 8 parity words. */
uint32_t hawserfen_check_unit(const uint16_t *unit, size_t unit_words, uint16_t *room, size_t room_words);

/* ---- the CRC of a message from a start register; it refuses nothing */

uint16_t hawserfen_crc_words(uint16_t start, const uint16_t *message, size_t words);

uint16_t hawserfen_crc_bytes(uint16_t start, const uint8_t *message, size_t bytes);

/* ---- all other calls: the answer is one number of four words, from the highest: the refusal, then three parts. Each
   call below names its parts; the ones it does not name are 0. The refusal is 0 where the call is accepted, else a
   number of docs/FORMAT.md, and the three parts are 0 then. A flag is 0 or 1. */

/* word i of four, from the highest: of an answer, 0 the refusal, 1 to 3 the parts */
#define HAWSERFEN_PART(number, i) ((number) >> (48 - 16 * (i)) & 65535)

/* The unit writer: the unit of the data to the room. 1 the words written. Refusals 1, 3. */
uint64_t hawserfen_write_unit(const uint16_t *data, size_t data_words, uint16_t *room, size_t room_words);

/* The survey: 1 the chunks, 2 the skipped words, 3 whether a chunk ends with the recording. Refusal 1. */
uint64_t hawserfen_survey(const uint16_t *recording, size_t words, uint16_t sync);

/* The outline: 1 the image runs, 2 the health runs. Refusal 1. */
uint64_t hawserfen_outline(const uint16_t *recording, size_t words, uint16_t sync);

/* The frame at a place, its data to the room: 1 the chunks, 2 the data words, 3 the camera, 4 more as it is complete,
   8 more if it has the mark. Refusals 1, 2, 14, 6, 3. */
uint64_t hawserfen_read_frame(const uint16_t *recording, size_t words, uint16_t sync, size_t place, uint16_t *room,
                              size_t room_words);

/* The reel writer: the reel of the recording to the room. 1 the words written. Refusals 1, 3. */
uint64_t hawserfen_write_reel(const uint16_t *recording, size_t words, uint16_t sync, uint16_t *room,
                              size_t room_words);

/* The reel reader: 1 the words of the recording, which are the reel's first, 2 the entries. Refusals 1, 13. */
uint64_t hawserfen_read_reel(const uint16_t *reel, size_t words, uint16_t sync);

/* The newest packet of a type: 1 the recording where it stands, 1 science or 2 health, 2 its place there, 3 the mark of
   its chunk. Refusals 4, 1, 2. */
uint64_t hawserfen_last_place(const uint16_t *science, size_t science_words, uint16_t sync, const uint16_t *health,
                              size_t health_words, uint16_t type);

/* The packet reader, the 29 words after the time to the room: 1 the type, 2 the time. Refusals 1, 5, 7, and then 3, the
   room has fewer than 29 words. */
uint64_t hawserfen_read_packet(const uint16_t *packet, size_t words, uint16_t *room, size_t room_words);

/* The command reader: 1 the further bytes, which stand from byte 12 on. Where it accepts, the fields become four words,
   from the highest: the sequence count, the type times 256 and the qualifier, the address, the data; else they stay.
   Refusals 4, 1, 9, 5, 8, 10, 11, 12. */
uint64_t hawserfen_read_command(uint8_t catalogue, uint8_t mode, const uint8_t *bytes, size_t n, uint64_t *fields);

/* The command writer: the command of these fields, as the reader gives them, to the room. 1 the bytes written.
   Refusals 4, 1, 8, 10, 11, 12, 3. */
uint64_t hawserfen_write_command(uint8_t catalogue, uint8_t mode, uint64_t fields, const uint8_t *further, size_t n,
                                 uint8_t *room, size_t room_bytes);

#endif
