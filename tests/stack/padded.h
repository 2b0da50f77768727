#ifndef PADDED_H
#define PADDED_H

#include <stddef.h>
#include <stdint.h>

/* refusal: 0 accepted, 1 wrong length, 6 no single flip explains the parity, 3 room too small. hit: 0 sound, 1 parity bit,
   2 data bit. word and bit say which; hit, word and bit are 0 on a refusal or if sound. */
struct padded_reply { unsigned refusal, hit, word, bit; };

/* Checks a unit, 8 parity words and then k data words, and puts its k data words, repaired if one bit of them was hit, into
   the room. */
struct padded_reply padded_check(const uint16_t *unit, size_t words, uint16_t *room, size_t room_words);

/* Writes the k + 8 words of the unit of k data words, k from 1 to 256; for any other k it writes nothing. */
void padded_write(const uint16_t *data, size_t k, uint16_t *unit);

#endif
