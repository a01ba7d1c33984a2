/* The contender that is tuned as a good textbook would: each thing that a frame is
 * judged by has a table, made when the program starts, and nothing is thought out
 * for this code in particular. Products of the field of 64 stand in a table of
 * 64 x 64; a frame's symbols are unpacked, and each of the 81 groups is four look-ups
 * of it, with positions and factors in the code; the check is made four bytes at a
 * time (slicing by four). The ledger, with the mask as words of bits and a word a
 * record, is the tuned contender's (ledger.h). */
#include "groups.h"
#include "ledger.h"

#include <stdbool.h>

enum { SYMBOLS = 162, MESSAGE_WORDS = 15, GROUPS = 81, CHECK = 0x864CFB };

/* product[a][b] is a times b, with x^6 = x + 1. */
static uint8_t product[64][64];

/* What a byte leaves in the check's 24 bits when it has gone through them, with so
 * many bytes of zero behind it. */
static uint32_t left[4][256];

__attribute__((constructor)) static void make_tables(void)
{
    for (unsigned a = 0; a < 64; a++)
        for (unsigned b = 1; b < 64; b++) {
            unsigned twice = product[a][b / 2] << 1;
            product[a][b] = (uint8_t)(twice ^ (twice & 64 ? 64 | 2 | 1 : 0) ^ (b & 1 ? a : 0));
        }
    for (unsigned byte = 0; byte < 256; byte++) {
        uint32_t check = byte << 16;
        for (unsigned i = 0; i < 4; i++) {
            for (unsigned bit = 0; bit < 8; bit++)
                check = (check << 1 & 0xFFFFFF) ^ (check >> 23 ? CHECK : 0);
            left[i][byte] = check;
        }
    }
}

/* Eight symbols stand in the 48 bits from bit 28 + 48 * k on, the last two in the last
 * 12. The eight are moved apart in a word by halves: four and four, two and two, one
 * and one. */
INLINE void unpack(const uint8_t *frame, uint8_t *symbol)
{
    for (unsigned k = 0; k < SYMBOLS / 8; k++) {
        uint64_t eight = be64(frame + 3 + 6 * k) << 4 >> 16;
        eight = (eight & 0xFFFFFF) | (eight & 0xFFFFFF000000) << 8;
        eight = (eight & 0x00000FFF00000FFF) | (eight & 0x00FFF00000FFF000) << 4;
        eight = (eight & 0x003F003F003F003F) | (eight & 0x0FC00FC00FC00FC0) << 2;
        store64(symbol + 8 * k, __builtin_bswap64(eight));
    }
    symbol[SYMBOLS - 2] = be16(frame + 123) >> 6 & 63;
    symbol[SYMBOLS - 1] = frame[124] & 63;
}

/* Whether each group's sum is 0. */
INLINE bool parity_stands(const uint8_t *symbol)
{
#pragma GCC unroll 81
    for (unsigned g = 0; g < GROUPS; g++) {
        const uint8_t *p = position[g], *f = factor[g];
        if ((product[f[0]][symbol[p[0]]] ^ product[f[1]][symbol[p[1]]] ^ product[f[2]][symbol[p[2]]] ^
             product[f[3]][symbol[p[3]]]) != 0)
            return false;
    }
    return true;
}

/* What the message and its 24 check bits leave, 486 bits from bit 28 on: six bits,
 * and then 15 words of 32. */
INLINE uint32_t check_left(const uint8_t *frame, uint8_t first)
{
    uint32_t check = left[0][first];
#pragma GCC unroll 15
    for (unsigned i = 0; i < MESSAGE_WORDS; i++) {
        uint32_t word = (uint32_t)(be64(frame + 4 + 4 * i) >> 30) ^ check << 8;
        check = left[3][word >> 24] ^ left[2][word >> 16 & 255] ^ left[1][word >> 8 & 255] ^ left[0][word & 255];
    }
    return check;
}

INLINE unsigned judge_code(const uint8_t *frame)
{
    uint8_t symbol[SYMBOLS];

    unpack(frame, symbol);
    if (!parity_stands(symbol))
        return 6;
    return UNLIKELY(check_left(frame, symbol[0]) != 0) ? 7 : 0;
}
