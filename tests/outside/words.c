/* D1 and D2 words and subframes, written from source document 003 alone:
 * sections 5.1.3 (code and interleaving), 5.2.2 (words of a subframe) and
 * 5.2.4 (Pre, FraID, SOW). A code word is found by long division of
 * polynomials; a received one is corrected by the one code word at distance 0 or
 * 1 of it, found by writing down what each of the 2,048 can become. Bits are kept
 * one to an element, so no step is shared with the library. */
#include "words.h"

#include <stdbool.h>
#include <stdlib.h>
#include <string.h>

/* ---- bits, high bit first ---- */

static void spread_bits(uint8_t *bits, uint32_t value, int n)
{
    for (int i = 0; i < n; i++)
        bits[i] = value >> (n - 1 - i) & 1;
}

static uint32_t gather_bits(const uint8_t *bits, int n)
{
    uint32_t value = 0;
    for (int i = 0; i < n; i++)
        value = value * 2 + bits[i];
    return value;
}

static void bytes_to_bits(uint8_t *bits, const uint8_t *bytes, int n)
{
    for (int i = 0; i < n; i++)
        bits[i] = bytes[i / 8] >> (7 - i % 8) & 1;
}

static void bits_to_bytes(uint8_t *bytes, const uint8_t *bits, int n)
{
    memset(bytes, 0, (size_t)(n + 7) / 8);
    for (int i = 0; i < n; i++)
        bytes[i / 8] |= (uint8_t)(bits[i] << (7 - i % 8));
}

/* ---- the code ---- */

/* Long division of x^4 times the eleven bits by x^4 + x + 1. */
static void code_bits(uint8_t word[15], const uint8_t info[11])
{
    static const uint8_t generator[5] = { 1, 0, 0, 1, 1 };
    uint8_t rest[15] = { 0 };
    memcpy(rest, info, 11);
    for (int i = 0; i < 11; i++)
        if (rest[i])
            for (int k = 0; k < 5; k++)
                rest[i + k] ^= generator[k];
    memcpy(word, info, 11);
    memcpy(word + 11, rest + 11, 4);
}

uint16_t ref_bch_encode(uint16_t info)
{
    uint8_t bits[11], word[15];
    spread_bits(bits, info & 2047, 11);
    code_bits(word, bits);
    return (uint16_t)gather_bits(word, 15);
}

/* What was sent, for each 15 bits that can be received: every code word writes
 * its eleven bits down at itself and at the 15 places with one bit flipped. */
static uint16_t sent[32768];
static bool sent_known;

static void find_sent(void)
{
    static uint8_t times[32768];
    for (uint16_t info = 0; info < 2048; info++) {
        uint16_t word = ref_bch_encode(info);
        sent[word] = info;
        times[word]++;
        for (int bit = 0; bit < 15; bit++) {
            uint16_t flipped = (uint16_t)(word ^ 1 << bit);
            sent[flipped] = info;
            times[flipped]++;
        }
    }
    for (int i = 0; i < 32768; i++)
        if (times[i] != 1)
            abort(); /* the code is perfect: every 15 bits are near just one code word */
    sent_known = true;
}

uint16_t ref_bch_correct(uint16_t received)
{
    if (!sent_known)
        find_sent();
    return sent[received & 32767];
}

/* ---- words ---- */

uint32_t ref_write_word(uint32_t info)
{
    uint8_t bits[22], first[15], second[15], word[30];
    spread_bits(bits, info & 4194303, 22);
    code_bits(first, bits);
    code_bits(second, bits + 11);
    for (int i = 0; i < 15; i++) {
        word[2 * i] = first[i];
        word[2 * i + 1] = second[i];
    }
    return gather_bits(word, 30);
}

uint32_t ref_read_word(uint32_t received)
{
    uint8_t word[30], first[15], second[15];
    spread_bits(word, received & 1073741823, 30);
    for (int i = 0; i < 15; i++) {
        first[i] = word[2 * i];
        second[i] = word[2 * i + 1];
    }
    return (uint32_t)ref_bch_correct((uint16_t)gather_bits(first, 15)) << 11 |
           ref_bch_correct((uint16_t)gather_bits(second, 15));
}

uint32_t ref_write_first(uint32_t info)
{
    uint8_t bits[26], word[30];
    spread_bits(bits, info & 67108863, 26);
    memcpy(word, bits, 15);
    code_bits(word + 15, bits + 15);
    return gather_bits(word, 30);
}

uint32_t ref_read_first(uint32_t received)
{
    uint8_t word[30];
    spread_bits(word, received & 1073741823, 30);
    return gather_bits(word, 15) << 11 | ref_bch_correct((uint16_t)gather_bits(word + 15, 15));
}

/* ---- subframes ---- */

void ref_code_subframe(uint8_t subframe[SUBFRAME_BYTES], const uint8_t data[SUBFRAME_DATA_BYTES])
{
    uint8_t bits[304] = { 0 }, info[224];
    bytes_to_bits(info, data, 224);
    spread_bits(bits, ref_write_first(gather_bits(info, 26)), 30);
    for (int i = 1; i < 10; i++)
        spread_bits(bits + 30 * i, ref_write_word(gather_bits(info + 26 + 22 * (i - 1), 22)), 30);
    bits_to_bytes(subframe, bits, 304);
}

/* 32 to 34 by the 224 bits, 0 if none applies. */
static uint8_t judge(const uint8_t *bits)
{
    static const uint8_t preamble[11] = { 1, 1, 1, 0, 0, 0, 1, 0, 0, 1, 0 };
    uint32_t frame = gather_bits(bits + 15, 3);
    if (memcmp(bits, preamble, 11) != 0)
        return 32;
    if (frame == 0 || frame == 6 || frame == 7)
        return 33;
    return gather_bits(bits + 18, 20) >= 7 * 24 * 3600 ? 34 : 0;
}

uint8_t ref_read_subframe(uint8_t *room, size_t room_length, const uint8_t *s, size_t length)
{
    uint8_t bits[304], data[224], number;
    if (length != SUBFRAME_BYTES || room_length != SUBFRAME_DATA_BYTES)
        return 31;
    bytes_to_bits(bits, s, 304);
    if (gather_bits(bits + 300, 4) != 0)
        return 31;
    spread_bits(data, ref_read_first(gather_bits(bits, 30)), 26);
    for (int i = 1; i < 10; i++)
        spread_bits(data + 26 + 22 * (i - 1), ref_read_word(gather_bits(bits + 30 * i, 30)), 22);
    number = judge(data);
    if (number == 0)
        bits_to_bytes(room, data, 224);
    return number;
}

uint8_t ref_write_subframe(uint8_t *room, size_t room_length, const uint8_t *s, size_t length)
{
    uint8_t data[224], number;
    if (length != SUBFRAME_DATA_BYTES || room_length != SUBFRAME_BYTES)
        return 31;
    bytes_to_bits(data, s, 224);
    number = judge(data);
    if (number == 0)
        ref_code_subframe(room, s);
    return number;
}
