/* The independent implementation of D1 and D2 words and subframes (words.c).
 * Bits above a number's width are ignored. Reading and writing a subframe answer
 * 0 for taken, or the refusal number, 31 to 34, with the room as it was. */
#ifndef WORDS_H
#define WORDS_H

#include <stddef.h>
#include <stdint.h>

enum { SUBFRAME_BYTES = 38, SUBFRAME_DATA_BYTES = 28 };

/* A code word: the 15 bits sent for 11, and the 11 that were sent where at most
 * one of the 15 bits was flipped. */
uint16_t ref_bch_encode(uint16_t info);
uint16_t ref_bch_correct(uint16_t received);

/* A word of 30 bits, for 22; the first of a subframe, for 26. */
uint32_t ref_write_word(uint32_t info);
uint32_t ref_read_word(uint32_t received);
uint32_t ref_write_first(uint32_t info);
uint32_t ref_read_first(uint32_t received);

/* The ten words of any 224 bits, whatever they say. */
void ref_code_subframe(uint8_t subframe[SUBFRAME_BYTES], const uint8_t data[SUBFRAME_DATA_BYTES]);

uint8_t ref_read_subframe(uint8_t *room, size_t room_length, const uint8_t *s, size_t length);
uint8_t ref_write_subframe(uint8_t *room, size_t room_length, const uint8_t *s, size_t length);

#endif
