/* The contender tuned by hand for speed on x86-64: written for this comparison
 * alone, to be as fast as C compiled with gcc -O2 can be made. It gives every frame
 * the verdict that tests/outside/ref.c gives it and keeps the same ledger, in a
 * layout of its own (ledger.h); it shares with it nothing but the printed parity
 * groups. Here is how it looks parity and check up.
 *
 * Parity groups and check bits are linear in a frame's bits, so both are looked
 * up at once, in one table entry for each symbol and value. The tables, 92 KB, are
 * made when the program starts. */
#include "groups.h"
#include "ledger.h"

enum { SYMBOLS = 162, MESSAGE_SYMBOLS = 81, GROUPS = 81, ROUND = 27 };

/* Three neighbouring symbols, from a multiple of three on, are a triple. They
 * stand in the groups three by three too: each triple meets two threes of groups,
 * and each three of groups is met by two triples of message symbols and two of
 * parity symbols. So the 27 message triples make a round through all 27 threes,
 * each triple leading from one to the next, and the 27 parity triples make
 * another. Threes are numbered along the message triples' round: message triple
 * message_round[k] leads from three k to three k + 1, and the last one back to 0.
 * Parity triple parity_round[j] leads from three parity_three[j] to the next. */
static const uint8_t message_round[ROUND] = { 0, 16, 2,  15, 1, 21, 5,  19, 8,  23, 9,  24, 11, 17,
                                              3, 20, 7,  25, 6, 22, 13, 10, 26, 12, 18, 4,  14 };
static const uint8_t parity_round[ROUND] = { 27, 46, 31, 51, 33, 48, 35, 47, 32, 40, 53, 28, 42, 37,
                                             52, 29, 43, 36, 49, 34, 44, 30, 45, 39, 50, 38, 41 };
static const uint8_t parity_three[ROUND] = { 0,  13, 7, 21, 11, 26, 3, 17, 15, 22, 24, 10, 4, 16,
                                             12, 18, 2, 19, 23, 5,  9, 14, 25, 8,  20, 1,  6 };

/* What a symbol adds, by its value: a share of 18 bits, three groups of 6, to
 * each of its two threes, one in the low half of the word and one in the high
 * half. A message symbol's share of the 24 check bits stands in the bits between. */
enum { SHARE = 0x3FFFF, HALF = 32, CHECK_LOW = 18, CHECK_LOW_BITS = 14, CHECK_HIGH = 50 };
#define CHECK_SHARE 0x0FFC0000FFFC0000

/* Four symbols fill three bytes of a frame, from byte 3, its second half, on:
 * 4 + 2 bits, 6, 6, 2 + 4. Each is cut out by masks alone, without a shift, so
 * that a byte has six bits of its symbol and two that are zero. Those two are
 * used to lay four symbols' entries into one table of 256. */
static uint64_t share[4][11][256];
static const uint8_t spare[4] = { 4, 6, 0, 2 }; /* where the zero bits stand, for each of the four */

static unsigned times(unsigned a, unsigned b)
{
    unsigned product = 0;
    for (; b != 0; b >>= 1) {
        product ^= b & 1 ? a : 0;
        a = a << 1 ^ (a & 32 ? 64 | 2 | 1 : 0);
    }
    return product;
}

/* The three that a group belongs to. */
static unsigned three_of(unsigned group)
{
    unsigned one = position[group][0] / 3u, other = position[group][1] / 3u;
    for (unsigned k = 0;; k++) {
        unsigned here = message_round[k], before = message_round[(k + ROUND - 1) % ROUND];
        if ((one == here && other == before) || (one == before && other == here))
            return k;
    }
}

/* Where a three's share begins in the entries of a triple's symbols: for message
 * triples low and high half take turns along the round; for a parity triple it is
 * the low half that has the three it comes from. */
static unsigned half_of(unsigned triple, unsigned three)
{
    if (triple == message_round[ROUND - 1] && three == 0)
        return HALF;
    for (unsigned j = 0; j < ROUND; j++)
        if (parity_round[j] == triple)
            return parity_three[j] == three ? 0 : HALF;
    return three % 2 == 0 ? 0 : HALF;
}

/* The byte that a symbol with value v is cut out as. */
static unsigned cut(unsigned symbol, unsigned v)
{
    switch (symbol % 4) {
    case 0: return v >> 2 | (v & 3) << 6;
    case 1: return v;
    case 2: return v << 2;
    default: return v >> 4 | (v & 15) << 4;
    }
}

__attribute__((constructor)) static void make_tables(void)
{
    uint64_t bit_share[SYMBOLS][6] = { 0 }; /* what each bit of each symbol adds, low bit first */
    uint8_t seen[ROUND] = { 0 };            /* groups of each three so far */
    uint64_t check = 1;

    for (unsigned g = 0; g < GROUPS; g++) {
        unsigned three = three_of(g), rank = seen[three]++;
        for (unsigned k = 0; k < 4; k++) {
            unsigned symbol = position[g][k], at = half_of(symbol / 3, three) + 6 * rank;
            for (unsigned b = 0; b < 6; b++)
                bit_share[symbol][b] |= (uint64_t)times(factor[g][k], 1u << b) << at;
        }
    }
    for (unsigned i = 0; i < 6 * MESSAGE_SYMBOLS; i++) { /* from the message's last bit on */
        bit_share[MESSAGE_SYMBOLS - 1 - i / 6][i % 6] |=
            (check & ((1 << CHECK_LOW_BITS) - 1)) << CHECK_LOW | check >> CHECK_LOW_BITS << CHECK_HIGH;
        check = check << 1 ^ (check >> 23 != 0 ? 0x1864CFB : 0);
    }
    for (unsigned i = 0; i < SYMBOLS; i++) {
        uint64_t *table = share[i % 4][i / 16] + (i / 4 % 4 << spare[i % 4]);
        for (unsigned v = 1; v < 64; v++)
            table[cut(i, v)] = table[cut(i, v & (v - 1))] ^ bit_share[i][__builtin_ctz(v)];
    }
}

typedef uint8_t sixteen __attribute__((vector_size(16)));

INLINE sixteen load_sixteen(const uint8_t *p)
{
    sixteen v;
    memcpy(&v, p, sizeof v);
    return v;
}

/* A frame's symbols, cut out fifteen bytes of the frame at a time: the third of
 * each four in `high`, the others in `rest`. */
struct symbols {
    sixteen rest[8], high[8];
    uint8_t last;
};

INLINE void cut_symbols(const uint8_t *frame, struct symbols *s)
{
    const sixteen own = { 0x0F, 0x3F, 3, 0x0F, 0x3F, 3, 0x0F, 0x3F, 3, 0x0F, 0x3F, 3, 0x0F, 0x3F, 3, 0x0F };
    const sixteen next = { 0xC0, 0, 0xF0, 0xC0, 0, 0xF0, 0xC0, 0, 0xF0, 0xC0, 0, 0xF0, 0xC0, 0, 0xF0, 0xC0 };
    const sixteen high = { 0xFC, 0xFC, 0xFC, 0xFC, 0xFC, 0xFC, 0xFC, 0xFC,
                           0xFC, 0xFC, 0xFC, 0xFC, 0xFC, 0xFC, 0xFC, 0xFC };
#pragma GCC unroll 8
    for (int i = 0; i < 8; i++) {
        sixteen v = load_sixteen(frame + 3 + 15 * i);
        s->high[i] = v & high;
        s->rest[i] = (v & own) | (load_sixteen(frame + 4 + 15 * i) & next);
    }
    s->last = frame[124] & 0x3F;
    __asm__("" : "+m"(*s)); /* their bytes are read from memory, not out of registers */
}

/* The entry of symbol i, which is known when this is compiled. */
INLINE uint64_t entry(const struct symbols *s, unsigned i)
{
    unsigned role = i % 4, byte = i / 4 * 3 + (role == 3 ? 2 : role); /* of the frame, from byte 3 on */
    unsigned place = byte + (byte / 15 < 8 ? byte / 15 : 7);
    const uint8_t *from = role == 2 ? (const uint8_t *)s->high : (const uint8_t *)s->rest;
    return share[role][i / 16][(i / 4 % 4u << spare[role]) + (i == SYMBOLS - 1 ? s->last : from[place])];
}

/* Has the compiler work a word out here, and not put it off or in another order. */
#define NOW(word) __asm__("" : "+r"(word))

INLINE uint64_t add_triple(uint64_t sum, const struct symbols *s, unsigned t)
{
    for (unsigned i = 0; i < 3; i++) {
        sum ^= entry(s, 3 * t + i);
        NOW(sum);
    }
    return sum;
}

/* A complete sum of a three, alone in the half in which the message triples
 * have that three. */
INLINE uint64_t in_half(unsigned three, uint64_t sum) { return three % 2 == 0 ? (uint32_t)sum : sum << HALF; }

/* Both rounds are gone along in three arcs of nine at a time, so that the
 * processor has three sums to work on side by side. */

/* The parity triples' sum for each three. Along their round the low half has the
 * three that a triple comes from, which is complete with it, and the high half
 * the one that it leads to, which moves to the low half next. */
INLINE void add_parity(const struct symbols *s, uint64_t parity[ROUND])
{
    uint64_t sum[3], first[3];
#pragma GCC unroll 3
    for (unsigned a = 0; a < 3; a++)
        first[a] = sum[a] = add_triple(0, s, parity_round[9 * a]);
#pragma GCC unroll 8
    for (unsigned j = 1; j < 9; j++)
#pragma GCC unroll 3
        for (unsigned a = 0; a < 3; a++) {
            sum[a] = add_triple(sum[a] >> HALF, s, parity_round[9 * a + j]);
            parity[parity_three[9 * a + j]] = in_half(parity_three[9 * a + j], sum[a]);
        }
#pragma GCC unroll 3
    for (unsigned a = 0; a < 3; a++) /* where one arc ends and the next begins */
        parity[parity_three[9 * a]] = in_half(parity_three[9 * a], first[a] ^ sum[(a + 2) % 3] >> HALF);
}

/* Refusals 6 and 7. Along the message triples' round low and high half take
 * turns. With its two message triples and the parity triples' sum added, a three's
 * half is zero again; a half that is not shows in `bad`, and goes on showing. */
INLINE unsigned judge_code(const uint8_t *frame)
{
    struct symbols s;
    uint64_t parity[ROUND], sum[3], first[3], bad[2] = { 0, 0 }; /* low and high half */

    cut_symbols(frame, &s);
    add_parity(&s, parity);
    __asm__("" : "+m"(parity)); /* in memory, where each is one operand */
#pragma GCC unroll 3
    for (unsigned a = 0; a < 3; a++) {
        first[a] = add_triple(0, &s, message_round[9 * a]);
        sum[a] = first[a] & ~((uint64_t)SHARE << HALF * (a % 2));
    }
#pragma GCC unroll 8
    for (unsigned k = 1; k < 9; k++)
#pragma GCC unroll 3
        for (unsigned a = 0; a < 3; a++) {
            sum[a] = add_triple(sum[a], &s, message_round[9 * a + k]) ^ parity[9 * a + k];
            bad[(a + k) % 2] |= sum[a];
            NOW(bad[(a + k) % 2]);
        }
    bad[1] |= first[1] ^ sum[0] ^ parity[9];
    bad[0] |= first[2] ^ sum[1] ^ parity[18];
    bad[0] |= first[0] ^ sum[2] >> HALF ^ parity[0];
    if (UNLIKELY(((bad[0] | bad[1] >> HALF) & SHARE) != 0))
        return 6;
    return UNLIKELY(((sum[0] ^ sum[1] ^ sum[2]) & CHECK_SHARE) != 0) ? 7 : 0;
}
