/* The library's boundary as far as the benchmark needs it (qvd_open, qvd_take,
 * qvd_replay), over a ledger that keeps a word a record: what the contenders tuned.c
 * and textbook.c have in common. Whoever includes it says by judge_code how a frame's
 * parity and check are judged; they differ in nothing else. It needs nothing that
 * some x86-64 lacks.
 *
 * A frame is judged whole before the ledger is touched. What it says then goes
 * straight into the ledger, with the record's bits as they stand in the frame: no
 * contents are put together in between, and fields are left to be cut out when a
 * list is asked for. */
#include "quieuvodan.h"

#include <string.h>

#define INLINE static inline __attribute__((always_inline))
#define UNLIKELY(condition) __builtin_expect(!!(condition), 0)

enum { LAST_EPOCH = 86399 };

/* Refusals 6 and 7 of a frame, or 0: it is the contender's. */
INLINE unsigned judge_code(const uint8_t *frame);

/* ---- words of bytes ---- */

INLINE uint32_t load32(const uint8_t *p)
{
    uint32_t word;
    memcpy(&word, p, sizeof word);
    return word;
}

INLINE uint64_t load64(const uint8_t *p)
{
    uint64_t word;
    memcpy(&word, p, sizeof word);
    return word;
}

INLINE void store64(uint8_t *p, uint64_t word) { memcpy(p, &word, sizeof word); }

/* High byte first. */
INLINE uint32_t be16(const uint8_t *p) { return (uint32_t)p[0] << 8 | p[1]; }
INLINE uint32_t be32(const uint8_t *p) { return __builtin_bswap32(load32(p)); }
INLINE uint64_t be64(const uint8_t *p) { return __builtin_bswap64(load64(p)); }

/* ---- the ledger ---- */

/* An orbit in force is a word: the 60 bits of its record after the slot, then
 * ORBIT_HELD and the IOD SSR. A clock in force is a word too: from the low end
 * the 18 bits of its record, the IOD SSR, CLOCK_HELD, and the number of the mask
 * that it was placed by, or 0 if it was named by its slot. A clock with a number
 * that is neither 0 nor that of the mask in force has been dropped: a mask that
 * differs from the one before it gets the next number, and that drops all clocks
 * that came by place at once. The epochs stand beside the words. A URA code that
 * replaces an orbit's is a word with the mask's number above the code, or 0: an orbit
 * that comes into force clears it, so that one for a slot without an orbit may be
 * stored like any other. Entry 0 of all takes what blank records and filler say, and
 * is never looked at. */
enum {
    ORBIT_HELD = 8,
    ORBIT_CORR = 51,     /* where the IOD Corr begins */
    CLOCK_BITS = 0x3FFFF,
    CLOCK_CORR = 15,     /* where the IOD Corr begins */
    CLOCK_SSR = 18,      /* where the IOD SSR begins */
    CLOCK_HELD = 1 << 20,
    CLOCK_NUMBER = 22,   /* where the number begins */
    NO_MASK = 64
};

struct ledger {
    uint32_t head;         /* of its frames: the first four bytes, of them the bits in HEAD_BITS */
    uint32_t epoch;        /* of the mask in force */
    uint64_t tag;          /* of a clock that comes by place now */
    uint64_t mask[4];      /* in force: a frame's bytes 7 to 38, slot k is bit k + 4, high bit first */
    uint8_t tail;          /* and the four bits of slots 252 to 255 */
    uint8_t key;           /* 16 * IOD SSR + IODP of the mask in force, or NO_MASK */
    uint8_t places;        /* number of its set bits */
    uint8_t slot_at[280];  /* slot_at[n] has place n; at least 23 zeros follow the last */
    uint64_t orbit[256];
    uint64_t clock[256];
    uint64_t code[256];
    uint32_t orbit_epoch[256];
    uint32_t clock_epoch[256];
} __attribute__((packed, may_alias));

_Static_assert(sizeof(struct ledger) <= QVD_LEDGER_BYTES, "the ledger fits its bytes");

/* Sync, PRN and first flag. */
enum { HEAD_BITS = 0xFEFFFF, SYNC = 0x90EB };

/* ---- frames ---- */

/* Refusals 3 to 5 of a frame whose head is not the ledger's. A ledger that was
 * never opened has no sync in its head: it is for no PRN. */
static __attribute__((cold, noinline)) unsigned head_refusal(const struct ledger *l, const uint8_t *frame)
{
    if ((load32(frame) & 0xFFFF) != SYNC)
        return 3;
    return (l->head & 0xFFFF) != SYNC || frame[2] >> 2 != (l->head >> 18 & 63) ? 4 : 5;
}

/* The slots of a byte of the mask, from 4 on, and their number. */
static uint64_t spread[256];
static uint8_t ones[256];

__attribute__((constructor)) static void make_spread(void)
{
    for (unsigned byte = 0; byte < 256; byte++)
        for (unsigned bit = 0; bit < 8; bit++)
            if (byte >> (7 - bit) & 1)
                spread[byte] |= (uint64_t)(bit + 4) << 8 * ones[byte]++;
}

/* Lists the slots of a mask's bits by their place. */
static __attribute__((noinline)) void list_places(struct ledger *l, const uint8_t *frame)
{
    uint8_t *first = l->slot_at + 1, *p = first;
    for (unsigned slot = 1; slot <= 3; slot++) {
        *p = (uint8_t)slot;
        p += frame[7] >> (3 - slot) & 1;
    }
    for (unsigned i = 0; i < 32; i++) {
        unsigned byte = i < 31 ? frame[8 + i] : frame[39] & 0xF0; /* the mask ends within byte 39 */
        store64(p, spread[byte] + UINT64_C(0x0808080808080808) * i);
        p += ones[byte];
    }
    store64(p, 0);
    store64(p + 8, 0);
    store64(p + 16, 0);
    l->places = (uint8_t)(p - first);
}

/* In what follows `x` is the word of a frame's bytes 3 to 10, its bits 24 to 87:
 * the fields before the records of every type lie in it. */

/* Type 1. */
INLINE unsigned take_mask(struct ledger *l, const uint8_t *frame, uint64_t x)
{
    uint32_t epoch = x >> 37 & 0x1FFFF;
    uint8_t key = x >> 27 & 63;
    uint64_t a = load64(frame + 7), b = load64(frame + 15), c = load64(frame + 23), d = load64(frame + 31), other;
    uint8_t tail = frame[39] >> 4;

    if (epoch > LAST_EPOCH)
        return 10;
    l->epoch = epoch;
    other = ((a ^ l->mask[0]) & ~(uint64_t)0xF8) | (b ^ l->mask[1]) | (c ^ l->mask[2]) | (d ^ l->mask[3]) |
            (tail ^ l->tail); /* without the IODs */
    if (other != 0 || key != l->key) {
        if (other != 0)
            list_places(l, frame);
        l->mask[0] = a;
        l->mask[1] = b;
        l->mask[2] = c;
        l->mask[3] = d;
        l->tail = tail;
        l->key = key;
        l->tag = ((l->tag >> CLOCK_NUMBER) + 1) << CLOCK_NUMBER | CLOCK_HELD | (uint64_t)(key >> 4) << CLOCK_SSR;
    }
    return 0;
}

/* Whether a slot other than 0 is there twice. */
static __attribute__((cold, noinline)) unsigned named_twice(const uint16_t *slots, unsigned count)
{
    for (unsigned i = 0; i < count; i++)
        for (unsigned k = 0; k < i; k++)
            if (slots[i] != 0 && slots[i] == slots[k])
                return 1;
    return 0;
}

/* What must be equal for a record to be held off by the one held: held, IOD SSR
 * and IOD Corr; and it is then held off if its epoch is not less than half a day
 * ahead, around the clock. A clock by place counts as held while its number is that
 * of the mask in force. */
#define ORBIT_ISSUE ((uint64_t)7 << ORBIT_CORR | 15)
#define CLOCK_ISSUE ((uint64_t)7 << CLOCK_CORR | (uint64_t)3 << CLOCK_SSR | CLOCK_HELD)

INLINE unsigned is_older(uint32_t held, uint32_t epoch)
{
    uint32_t ahead = epoch >= held ? epoch - held : epoch + (LAST_EPOCH + 1) - held;
    return ahead >= (LAST_EPOCH + 1) / 2;
}

INLINE void keep_orbit(struct ledger *l, uint32_t slot, uint64_t word, uint32_t epoch)
{
    if (((l->orbit[slot] ^ word) & ORBIT_ISSUE) == 0 && is_older(l->orbit_epoch[slot], epoch))
        return;
    l->orbit[slot] = word;
    l->orbit_epoch[slot] = epoch;
    l->code[slot] = 0;
}

INLINE void keep_clock(struct ledger *l, uint32_t slot, uint64_t word, uint32_t epoch)
{
    uint64_t held = l->clock[slot];
    if (((held ^ word) & CLOCK_ISSUE) == 0 &&
        (held >> CLOCK_NUMBER == 0 || held >> CLOCK_NUMBER == l->tag >> CLOCK_NUMBER) &&
        is_older(l->clock_epoch[slot], epoch))
        return;
    l->clock[slot] = word;
    l->clock_epoch[slot] = epoch;
}

/* Type 2: record i begins with bit 57 + 69 * i, its fields after the slot with bit
 * 66 + 69 * i. */
#define SLOT(i) (be16(frame + (57 + 69 * (i)) / 8) >> (7 - (57 + 69 * (i)) % 8) & 511)
#define SHIFT(i) ((66 + 69 * (i)) % 8)
#define FIELDS(i) \
    (be64(frame + (66 + 69 * (i)) / 8) << SHIFT(i) | \
     (SHIFT(i) > 4 ? (uint64_t)frame[(66 + 69 * (i)) / 8 + 8] >> (8 - SHIFT(i)) : 0))

INLINE unsigned take_orbits(struct ledger *l, const uint8_t *frame, uint64_t x)
{
    uint8_t mark[256];
    const uint32_t s[6] = { SLOT(0), SLOT(1), SLOT(2), SLOT(3), SLOT(4), SLOT(5) };
    uint64_t tag = (x >> 31 & 3) | ORBIT_HELD;
    uint32_t epoch = x >> 37 & 0x1FFFF;

    if (epoch > LAST_EPOCH)
        return 10;
    if ((s[0] | s[1] | s[2] | s[3] | s[4] | s[5]) > 255)
        return 11;
    /* A slot that is there twice has lost its first mark. */
    mark[s[0]] = 0;
    mark[s[1]] = 1;
    mark[s[2]] = 2;
    mark[s[3]] = 3;
    mark[s[4]] = 4;
    mark[s[5]] = 5;
    if (UNLIKELY(mark[s[0]] != 0 || mark[s[1]] != 1 || mark[s[2]] != 2 || mark[s[3]] != 3 || mark[s[4]] != 4)) {
        const uint16_t slots[6] = { (uint16_t)s[0], (uint16_t)s[1], (uint16_t)s[2],
                                    (uint16_t)s[3], (uint16_t)s[4], (uint16_t)s[5] };
        if (named_twice(slots, 6))
            return 12;
    }
    keep_orbit(l, s[0], (FIELDS(0) & ~(uint64_t)15) | tag, epoch);
    keep_orbit(l, s[1], (FIELDS(1) & ~(uint64_t)15) | tag, epoch);
    keep_orbit(l, s[2], (FIELDS(2) & ~(uint64_t)15) | tag, epoch);
    keep_orbit(l, s[3], (FIELDS(3) & ~(uint64_t)15) | tag, epoch);
    keep_orbit(l, s[4], (FIELDS(4) & ~(uint64_t)15) | tag, epoch);
    keep_orbit(l, s[5], (FIELDS(5) & ~(uint64_t)15) | tag, epoch);
    return 0;
}

/* Type 4: record j, from 0, begins with bit 66 + 18 * j. */
INLINE unsigned take_clocks(struct ledger *l, const uint8_t *frame, uint64_t x)
{
    unsigned before = 23 * (unsigned)(x >> 22 & 31);
    const uint8_t *slot;
    uint64_t tag = l->tag, w;
    uint32_t epoch = x >> 37 & 0x1FFFF;

    if (epoch > LAST_EPOCH)
        return 10;
    if ((x >> 27 & 63) != l->key)
        return 14;
    if (before >= l->places)
        return 15;
    slot = l->slot_at + 1 + before;
    /* Three records, from record j on. */
#define THREE(j) \
    w = be64(frame + (66 + 18 * (j)) / 8); \
    keep_clock(l, slot[j], tag | (w >> (46 - (66 + 18 * (j)) % 8) & CLOCK_BITS), epoch); \
    keep_clock(l, slot[(j) + 1], tag | (w >> (28 - (66 + 18 * (j)) % 8) & CLOCK_BITS), epoch); \
    if ((j) + 2 < 23) \
        keep_clock(l, slot[(j) + 2], tag | (w >> (10 - (66 + 18 * (j)) % 8) & CLOCK_BITS), epoch);
    THREE(0) THREE(3) THREE(6) THREE(9) THREE(12) THREE(15) THREE(18) THREE(21)
    return 0;
}

/* The parts of types 6 and 7. The clock part begins with bit 42, the orbit part
 * where that ends. */
struct parts {
    unsigned clocks, orbits; /* how many records */
    unsigned orbits_at;      /* the orbit part's first bit */
    uint16_t orbit_slot[6];
};

/* Refusals 9 and 10. Clock records begin at a bit, if there are any, and have so
 * many bits each. The 23 bits before the orbit records are left in `head`. */
INLINE unsigned judge_parts(const uint8_t *frame, uint64_t x, unsigned at, unsigned bits, struct parts *p,
                            uint32_t *head)
{
    unsigned end;
    p->clocks = x >> 49 & 31;
    p->orbits = x >> 46 & 7;
    end = p->orbits_at = p->clocks > 0 ? at + bits * p->clocks : 42;
    if (p->orbits > 0)
        end += 23 + 69 * p->orbits;
    if (end > 28 + 462)
        return 9;
    if (p->clocks > 0 && (x >> 29 & 0x1FFFF) > LAST_EPOCH)
        return 10;
    *head = be32(frame + p->orbits_at / 8) << p->orbits_at % 8 >> 9;
    if (p->orbits > 0 && *head >> 6 > LAST_EPOCH)
        return 10;
    return 0;
}

/* The orbit records' slots, and all their bits. */
INLINE unsigned orbit_slots(const uint8_t *frame, struct parts *p)
{
    unsigned all = 0;
    for (unsigned i = 0, at = p->orbits_at + 23; i < p->orbits; i++, at += 69) {
        unsigned slot = be16(frame + at / 8) >> (7 - at % 8) & 511;
        p->orbit_slot[i] = (uint16_t)slot;
        all |= slot;
    }
    return all;
}

/* Whether two orbit records name one slot. */
INLINE unsigned orbits_twice(const struct parts *p)
{
    uint8_t mark[256];
    for (unsigned i = 0; i < p->orbits; i++)
        mark[p->orbit_slot[i]] = (uint8_t)i;
    for (unsigned i = 0; i < p->orbits; i++)
        if (UNLIKELY(mark[p->orbit_slot[i]] != i))
            return named_twice(p->orbit_slot, p->orbits);
    return 0;
}

INLINE void keep_orbits(struct ledger *l, const uint8_t *frame, const struct parts *p, uint32_t head)
{
    uint64_t tag = (head & 3) | ORBIT_HELD;
    for (unsigned i = 0, at = p->orbits_at + 32; i < p->orbits; i++, at += 69) {
        const uint8_t *from = frame + at / 8;
        uint64_t fields = be64(from) << at % 8 | from[8] >> (8 - at % 8);
        keep_orbit(l, p->orbit_slot[i], (fields & ~(uint64_t)15) | tag, head >> 6);
    }
}

/* The clock records of a part, from the last one down to the first: a switch over
 * their number goes in where the last one stands. */
#define DOWN_FROM_15(CLOCK) \
    CLOCK(14) CLOCK(13) CLOCK(12) CLOCK(11) CLOCK(10) CLOCK(9) CLOCK(8) CLOCK(7) \
    CLOCK(6) CLOCK(5) CLOCK(4) CLOCK(3) CLOCK(2) CLOCK(1) CLOCK(0)
#define DOWN_FROM_22(CLOCK) \
    CLOCK(21) CLOCK(20) CLOCK(19) CLOCK(18) CLOCK(17) CLOCK(16) CLOCK(15) DOWN_FROM_15(CLOCK)

/* Type 6: clock record j, from 0, begins with bit 78 + 18 * j. */
INLINE unsigned take_by_place(struct ledger *l, const uint8_t *frame, uint64_t x)
{
    struct parts p;
    unsigned first = x >> 10 & 511, refusal;
    const uint8_t *slot;
    uint64_t tag = l->tag;
    uint32_t head, epoch;

    epoch = x >> 29 & 0x1FFFF;
    refusal = judge_parts(frame, x, 78, 18, &p, &head);
    if (refusal != 0)
        return refusal;
    if (orbit_slots(frame, &p) > 255 || (p.clocks > 0 && (first == 0 || first > 255)))
        return 11;
    if (orbits_twice(&p))
        return 12;
    if (p.clocks > 0) {
        if ((x >> 19 & 63) != l->key)
            return 14;
        if (first + p.clocks - 1 > l->places)
            return 19;
        slot = l->slot_at + first;
#define PLACED(j) \
    case (j) + 1: \
        keep_clock(l, slot[j], tag | (be32(frame + (78 + 18 * (j)) / 8) >> (14 - (78 + 18 * (j)) % 8) & CLOCK_BITS), \
                   epoch); \
        __attribute__((fallthrough));
        switch (p.clocks) {
            DOWN_FROM_22(PLACED)
        default: break;
        }
    }
    keep_orbits(l, frame, &p, head);
    return 0;
}

/* Whether each slot still has the mark that it was given last. */
INLINE unsigned marks_stand(const uint8_t *mark, const uint16_t *slot, unsigned count)
{
#define MARKED(j) \
    case (j) + 1: \
        if (UNLIKELY(mark[slot[j]] != j)) \
            return 0; \
        __attribute__((fallthrough));
    switch (count) {
        DOWN_FROM_15(MARKED)
    default: return 1;
    }
}

/* Type 7: clock record j, from 0, begins with bit 65 + 27 * j. */
INLINE unsigned take_by_slot(struct ledger *l, const uint8_t *frame, uint64_t x)
{
    struct parts p;
    unsigned all, refusal;
    uint64_t tag = (x >> 23 & 3) << CLOCK_SSR | CLOCK_HELD;
    uint8_t mark[512];
    uint16_t slot[15];
    uint32_t head, epoch;

    epoch = x >> 29 & 0x1FFFF;
    refusal = judge_parts(frame, x, 65, 27, &p, &head);
    if (refusal != 0)
        return refusal;
    all = orbit_slots(frame, &p);
#define MARK(j) \
    case (j) + 1: \
        slot[j] = (uint16_t)(be16(frame + (65 + 27 * (j)) / 8) >> (7 - (65 + 27 * (j)) % 8) & 511); \
        all |= slot[j]; \
        mark[slot[j]] = j; \
        __attribute__((fallthrough));
    switch (p.clocks) {
        DOWN_FROM_15(MARK)
    default: break;
    }
    if (all > 255)
        return 11;
    if (!marks_stand(mark, slot, p.clocks) && named_twice(slot, p.clocks))
        return 12;
    if (orbits_twice(&p))
        return 12;
#define NAMED(j) \
    case (j) + 1: \
        keep_clock(l, slot[j], tag | (be32(frame + (74 + 27 * (j)) / 8) >> (14 - (74 + 27 * (j)) % 8) & CLOCK_BITS), \
                   epoch); \
        __attribute__((fallthrough));
    switch (p.clocks) {
        DOWN_FROM_15(NAMED)
    default: break;
    }
    keep_orbits(l, frame, &p, head);
    return 0;
}

/* Type 3: the satellites begin with bit 62. Nothing is kept. */
INLINE unsigned take_biases(const uint8_t *frame, uint64_t x)
{
    unsigned sats = x >> 26 & 31, at = 62, all = 0;
    uint16_t slot[31];
    uint8_t mark[512];

    for (unsigned i = 0; i < sats; i++) {
        uint32_t head = be32(frame + at / 8) << at % 8 >> 19; /* of the satellite: 13 bits */
        at += 13 + 16 * (head & 15);
        if (at > 28 + 462)
            return 9;
        slot[i] = (uint16_t)(head >> 4);
        all |= slot[i];
        mark[slot[i]] = (uint8_t)i;
    }
    if ((x >> 37 & 0x1FFFF) > LAST_EPOCH)
        return 10;
    if (all > 255)
        return 11;
    for (unsigned i = 0; i < sats; i++)
        if (UNLIKELY(mark[slot[i]] != i))
            return named_twice(slot, sats) ? 12 : 0;
    return 0;
}

/* Type 5: code j, from 0, begins with bit 64 + 6 * j. They are taken by fours, of
 * which the last may be filler, but there are only two behind the seventeenth. */
INLINE unsigned take_codes(struct ledger *l, const uint8_t *frame, uint64_t x)
{
    unsigned before = 70 * (unsigned)(x >> 24 & 7), count;
    const uint8_t *slot;
    uint64_t number = l->tag >> CLOCK_NUMBER << 8;

    if ((x >> 37 & 0x1FFFF) > LAST_EPOCH)
        return 10;
    if ((x >> 27 & 63) != l->key)
        return 14;
    if (before >= l->places)
        return 15;
    slot = l->slot_at + 1 + before;
    count = l->places - before < 70 ? l->places - before : 70;
    for (unsigned j = 0; j < count; j += 4) {
        uint32_t w = be32(frame + 8 + 3 * (j / 4));
        l->code[slot[j]] = number | w >> 26;
        l->code[slot[j + 1]] = number | (w >> 20 & 63);
        if (j == 68)
            break;
        l->code[slot[j + 2]] = number | (w >> 14 & 63);
        l->code[slot[j + 3]] = number | (w >> 8 & 63);
    }
    return 0;
}

INLINE unsigned take(struct ledger *l, const uint8_t *frame)
{
    uint64_t x;
    unsigned refusal, type;

    if (UNLIKELY((load32(frame) & HEAD_BITS) != l->head))
        return head_refusal(l, frame);
    refusal = judge_code(frame);
    if (UNLIKELY(refusal != 0))
        return refusal;
    x = be64(frame + 3);
    type = x >> 54 & 63;
    /* The most frequent first. */
    if (type == 4)
        return take_clocks(l, frame, x);
    if (type == 2)
        return take_orbits(l, frame, x);
    if (type == 6)
        return take_by_place(l, frame, x);
    if (type == 7)
        return take_by_slot(l, frame, x);
    if (type == 1)
        return take_mask(l, frame, x);
    if (type == 5)
        return take_codes(l, frame, x);
    if (type == 3)
        return take_biases(frame, x);
    return type == 63 ? 0 : 8;
}

/* ---- the boundary ---- */

INLINE unsigned fresh(uint8_t *ledger, unsigned prn)
{
    struct ledger *l = (struct ledger *)ledger;
    if (!((prn >= 1 && prn <= 5) || (prn >= 59 && prn <= 63)))
        return QVD_PRN;
    memset(ledger, 0, QVD_LEDGER_BYTES);
    l->head = SYNC | prn << 18;
    l->key = NO_MASK;
    return QVD_TAKEN;
}

uint8_t qvd_open(uint8_t *ledger, size_t n, uint8_t prn)
{
    return n != QVD_LEDGER_BYTES ? QVD_LENGTH : (uint8_t)fresh(ledger, prn);
}

uint8_t qvd_take(uint8_t *ledger, size_t n, const uint8_t *frame, size_t m)
{
    if (n != QVD_LEDGER_BYTES)
        return QVD_LENGTH;
    return m != QVD_FRAME_BYTES ? QVD_BAD_LENGTH : (uint8_t)take((struct ledger *)ledger, frame);
}

uint8_t qvd_replay(uint8_t *ledger, size_t n, uint8_t prn, const uint8_t *log, size_t m,
                   uint8_t *verdicts, size_t k)
{
    size_t whole = m / QVD_FRAME_BYTES;
    unsigned refusal;

    if (n != QVD_LEDGER_BYTES || k != whole + (m % QVD_FRAME_BYTES != 0))
        return QVD_LENGTH;
    refusal = fresh(ledger, prn);
    if (refusal != 0)
        return (uint8_t)refusal;
    for (size_t i = 0; i < whole; i++)
        verdicts[i] = (uint8_t)take((struct ledger *)ledger, log + i * QVD_FRAME_BYTES);
    if (k != whole)
        verdicts[whole] = QVD_BAD_LENGTH;
    return QVD_TAKEN;
}
