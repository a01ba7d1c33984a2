/* See ref.h. Straightforward C: symbols are multiplied by shift and add, the
 * check is made bit by bit, fields are cut out of the bytes where they lie. */
#include "ref.h"

#include "groups.h"

#include <stdlib.h>
#include <string.h>

enum { FRAME_HEAD_BITS = 28, CODED_BIT = FRAME_HEAD_BITS, SYNC = 0xEB90, LAST_EPOCH = 86399, EPOCH_BITS = (1 << 17) - 1 };

/* ---- bits ---- */

uint32_t ref_get_bits(const uint8_t *bytes, size_t at, unsigned width)
{
    size_t last = at + width - 1;
    uint64_t window = 0;
    for (size_t i = at / 8; i <= last / 8; i++)
        window = window << 8 | bytes[i];
    return (uint32_t)(window >> (7 - last % 8) & ((UINT64_C(1) << width) - 1));
}

void ref_put_bits(uint8_t *bytes, size_t at, unsigned width, uint32_t value)
{
    for (unsigned i = 0; i < width; i++) {
        size_t bit = at + i;
        uint8_t one = (uint8_t)(0x80 >> bit % 8);
        if (value >> (width - 1 - i) & 1)
            bytes[bit / 8] |= one;
        else
            bytes[bit / 8] &= (uint8_t)~one;
    }
}

/* A place in a message, from which fields are read one after another. */
struct reader {
    const uint8_t *bytes;
    size_t at;
};

static uint32_t next(struct reader *r, unsigned width)
{
    uint32_t value = ref_get_bits(r->bytes, r->at, width);
    r->at += width;
    return value;
}

static int16_t next_signed(struct reader *r, unsigned width)
{
    int32_t value = (int32_t)next(r, width);
    if (value >= 1 << (width - 1))
        value -= 1 << width;
    return (int16_t)value;
}

/* A place in a message, at which fields are written one after another. */
struct writer {
    uint8_t *bytes;
    size_t at;
};

static void put(struct writer *w, unsigned width, uint32_t value)
{
    ref_put_bits(w->bytes, w->at, width, value);
    w->at += width;
}

static void put_signed(struct writer *w, unsigned width, int32_t value)
{
    put(w, width, (uint32_t)value & ((UINT32_C(1) << width) - 1));
}

/* ---- field of 64, parity, check ---- */

uint8_t ref_times(uint8_t a, uint8_t b)
{
    unsigned shifted = a, product = 0;
    for (unsigned rest = b; rest != 0; rest >>= 1) {
        if (rest & 1)
            product ^= shifted;
        shifted <<= 1;
        if (shifted & 64)
            shifted ^= 64 | 2 | 1; /* x^6 = x + 1 */
    }
    return (uint8_t)product;
}

uint8_t ref_failing(const uint8_t symbol[SYMBOLS], uint8_t *first)
{
    uint8_t failing = 0;
    *first = 0;
    for (int g = 0; g < GROUPS; g++) {
        uint8_t sum = 0;
        for (int k = 0; k < 4; k++)
            sum ^= ref_times(factor[g][k], symbol[position[g][k]]);
        if (sum != 0) {
            if (failing == 0)
                *first = (uint8_t)(g + 1);
            failing++;
        }
    }
    return failing;
}

void ref_symbols(const uint8_t frame[FRAME_BYTES], uint8_t symbol[SYMBOLS])
{
    const uint8_t *from = frame + CODED_BIT / 8;
    unsigned window = *from++, bits = 8 - CODED_BIT % 8; /* the low `bits` of the window are still to come */
    for (int i = 0; i < SYMBOLS; i++) {
        if (bits < 6) {
            window = window << 8 | *from++;
            bits += 8;
        }
        bits -= 6;
        symbol[i] = (uint8_t)(window >> bits & 63);
    }
}

uint32_t ref_check(const uint8_t message[MESSAGE_BYTES])
{
    /* x^24 + x^23 + x^18 + x^17 + x^14 + x^11 + x^10 + x^7 + x^6 + x^5 + x^4 + x^3 + x + 1 */
    const uint32_t polynomial = 1u << 23 | 1u << 18 | 1u << 17 | 1u << 14 | 1u << 11 | 1u << 10 | 1u << 7 |
                                1u << 6 | 1u << 5 | 1u << 4 | 1u << 3 | 1u << 1 | 1u << 0;
    uint32_t reg = 0;
    for (int i = 0; i < CHECKED_BITS; i++) {
        uint32_t in = message[i / 8] >> (7 - i % 8) & 1u;
        uint32_t out = reg >> 23 & 1u;
        reg = reg << 1 & 0xFFFFFF;
        if (in ^ out)
            reg ^= polynomial;
    }
    return reg;
}

/* ---- URA ---- */

struct ura ref_ura(unsigned code)
{
    struct ura ura = { URA_UNKNOWN, 0 };
    if (code == 63) {
        ura.kind = URA_ABOVE;
    } else if (code != 0) {
        uint32_t quarters = 4 + code % 8;
        for (unsigned c = code / 8; c > 0; c--)
            quarters *= 3;
        ura.kind = URA_QUARTERS;
        ura.quarters = quarters - 4;
    }
    return ura;
}

int ref_ura_code(struct ura ura)
{
    if (ura.kind == URA_UNKNOWN)
        return 0;
    if (ura.kind == URA_ABOVE)
        return 63;
    if (ura.kind == URA_QUARTERS)
        for (unsigned code = 1; code < 63; code++)
            if (ref_ura(code).quarters == ura.quarters)
                return (int)code;
    return -1;
}

/* ---- what can be wrong with contents, read or to be written ---- */

static bool kind_known(unsigned kind)
{
    return (kind >= 1 && kind <= 7) || kind == 63;
}

unsigned ref_end(unsigned kind, unsigned num_c, unsigned num_o)
{
    unsigned end = 14;
    if (num_c > 0)
        end += kind == 6 ? 36 + 18 * num_c : 23 + 27 * num_c;
    if (num_o > 0)
        end += 23 + 69 * num_o;
    return end;
}

/* A blank has no biases, whatever number of them it is said to have. */
static unsigned biases_of(const struct bias_sat *sat) { return sat->slot == 0 ? 0 : sat->count; }

unsigned ref_bias_end(const struct bias_part *part)
{
    unsigned end = 34 + 13u * part->count;
    for (unsigned i = 0; i < part->count && i < BIAS_SATS; i++)
        end += 16 * biases_of(&part->sat[i]);
    return end;
}

static bool has_mask_part(const struct contents *c) { return c->kind == 1; }
static bool has_bias_part(const struct contents *c) { return c->kind == 3; }
static bool has_code_part(const struct contents *c) { return c->kind == 5; }

/* The satellites of a type 3: no more than there is room for. */
static unsigned sat_count(const struct contents *c)
{
    if (!has_bias_part(c))
        return 0;
    return c->biases.count < BIAS_SATS ? c->biases.count : BIAS_SATS;
}

static unsigned clock_count(const struct contents *c)
{
    if (c->kind == 4)
        return CLOCKS;
    return c->kind == 6 || c->kind == 7 ? c->clocks.count : 0;
}

static unsigned orbit_count(const struct contents *c)
{
    if (c->kind == 2)
        return ORBITS;
    return c->kind == 6 || c->kind == 7 ? c->orbits.count : 0;
}

static bool epoch_wrong(const struct contents *c)
{
    return (has_mask_part(c) && c->mask.epoch > LAST_EPOCH) ||
           (clock_count(c) > 0 && c->clocks.epoch > LAST_EPOCH) ||
           (orbit_count(c) > 0 && c->orbits.epoch > LAST_EPOCH) ||
           (has_bias_part(c) && c->biases.epoch > LAST_EPOCH) || (has_code_part(c) && c->codes.epoch > LAST_EPOCH);
}

static bool slot_wrong(const struct contents *c)
{
    if (c->kind == 6 && clock_count(c) > 0 && (c->clocks.first == 0 || c->clocks.first > SLOTS))
        return true;
    if (c->kind == 7)
        for (unsigned i = 0; i < clock_count(c); i++)
            if (c->clocks.record[i].slot > SLOTS)
                return true;
    for (unsigned i = 0; i < orbit_count(c); i++)
        if (c->orbits.record[i].slot > SLOTS)
            return true;
    for (unsigned i = 0; i < sat_count(c); i++)
        if (c->biases.sat[i].slot > SLOTS)
            return true;
    return false;
}

static bool slot_twice(const struct contents *c)
{
    if (c->kind == 7)
        for (unsigned i = 0; i < clock_count(c); i++)
            for (unsigned j = 0; j < i; j++)
                if (c->clocks.record[i].slot != 0 && c->clocks.record[i].slot == c->clocks.record[j].slot)
                    return true;
    for (unsigned i = 0; i < orbit_count(c); i++)
        for (unsigned j = 0; j < i; j++)
            if (c->orbits.record[i].slot != 0 && c->orbits.record[i].slot == c->orbits.record[j].slot)
                return true;
    for (unsigned i = 0; i < sat_count(c); i++)
        for (unsigned j = 0; j < i; j++)
            if (c->biases.sat[i].slot != 0 && c->biases.sat[i].slot == c->biases.sat[j].slot)
                return true;
    return false;
}

/* Refusals 10 to 12, for reading and writing alike. */
static unsigned judge(const struct contents *c)
{
    if (epoch_wrong(c))
        return 10;
    if (slot_wrong(c))
        return 11;
    if (slot_twice(c))
        return 12;
    return 0;
}

/* ---- reading ---- */

static void read_orbits(struct reader *r, unsigned count, struct orbit_part *part)
{
    part->epoch = next(r, 17);
    next(r, 4);
    part->iod_ssr = (uint8_t)next(r, 2);
    part->count = (uint8_t)count;
    for (unsigned i = 0; i < count; i++) {
        struct orbit_record *o = &part->record[i];
        size_t start = r->at;
        o->slot = (uint16_t)next(r, 9);
        if (o->slot != 0) {
            o->iodn = (uint16_t)next(r, 10);
            o->iod_corr = (uint8_t)next(r, 3);
            o->radial = next_signed(r, 15);
            o->along = next_signed(r, 13);
            o->cross = next_signed(r, 13);
            o->ura = ref_ura(next(r, 6));
        }
        r->at = start + 69;
    }
}

static void read_clocks(struct reader *r, unsigned kind, unsigned count, struct clock_part *part)
{
    part->epoch = next(r, 17);
    next(r, 4);
    part->iod_ssr = (uint8_t)next(r, 2);
    if (kind != 7) {
        part->iodp = (uint8_t)next(r, 4);
        part->first = (uint16_t)next(r, kind == 4 ? 5 : 9);
    }
    part->count = (uint8_t)count;
    for (unsigned i = 0; i < count; i++) {
        struct clock_record *c = &part->record[i];
        bool blank = false;
        if (kind == 7) {
            c->slot = (uint16_t)next(r, 9);
            blank = c->slot == 0;
        }
        if (blank) {
            next(r, 18);
        } else {
            c->iod_corr = (uint8_t)next(r, 3);
            c->c0 = next_signed(r, 15);
        }
    }
}

static void read_mask(struct reader *r, struct mask *mask)
{
    mask->epoch = next(r, 17);
    next(r, 4);
    mask->iod_ssr = (uint8_t)next(r, 2);
    mask->iodp = (uint8_t)next(r, 4);
    for (int slot = 1; slot <= SLOTS; slot++, r->at++)
        mask->set[slot] = r->bytes[r->at / 8] >> (7 - r->at % 8) & 1;
}

/* Whether it ends by bit 462, blanks and the biases that they step over included. */
static bool read_biases(struct reader *r, struct bias_part *part)
{
    struct bias *bias = part->bias;

    part->epoch = next(r, 17);
    next(r, 4);
    part->iod_ssr = (uint8_t)next(r, 2);
    part->count = (uint8_t)next(r, 5);
    for (unsigned i = 0; i < part->count; i++) {
        struct bias_sat sat;
        if (r->at + 13 > CHECKED_BITS)
            return false;
        sat.slot = (uint16_t)next(r, 9);
        sat.count = (uint8_t)next(r, 4);
        if (r->at + 16u * sat.count > CHECKED_BITS)
            return false;
        if (sat.slot == 0) {
            r->at += 16u * sat.count;
            continue;
        }
        part->sat[i] = sat;
        for (unsigned k = 0; k < sat.count; k++, bias++) {
            bias->mode = (uint8_t)next(r, 4);
            bias->value = next_signed(r, 12);
        }
    }
    return true;
}

static void read_codes(struct reader *r, struct code_part *part)
{
    part->epoch = next(r, 17);
    next(r, 4);
    part->iod_ssr = (uint8_t)next(r, 2);
    part->iodp = (uint8_t)next(r, 4);
    part->sub = (uint8_t)next(r, 3);
    for (unsigned i = 0; i < CODES; i++)
        part->code[i] = (uint8_t)next(r, 6);
}

/* Refusals 7 to 12, and what the message says where there are none. `out` is
 * all zero when this begins, and nothing that counts after a refusal. */
static unsigned read_fields(const uint8_t message[MESSAGE_BYTES], struct contents *out)
{
    struct reader r = { message, 0 };
    unsigned num_c, num_o;

    if (ref_check(message) != ref_get_bits(message, CHECKED_BITS, 24))
        return 7;
    out->kind = (uint8_t)next(&r, 6);
    if (!kind_known(out->kind))
        return 8;
    switch (out->kind) {
    case 1:
        read_mask(&r, &out->mask);
        break;
    case 2:
        read_orbits(&r, ORBITS, &out->orbits);
        break;
    case 3:
        if (!read_biases(&r, &out->biases))
            return 9;
        break;
    case 4:
        read_clocks(&r, 4, CLOCKS, &out->clocks);
        break;
    case 5:
        read_codes(&r, &out->codes);
        break;
    case 6:
    case 7:
        num_c = next(&r, 5);
        num_o = next(&r, 3);
        if (ref_end(out->kind, num_c, num_o) > CHECKED_BITS)
            return 9;
        if (num_c > 0)
            read_clocks(&r, out->kind, num_c, &out->clocks);
        if (num_o > 0)
            read_orbits(&r, num_o, &out->orbits);
        break;
    default:
        break;
    }
    return judge(out);
}

unsigned ref_read(const uint8_t *message, size_t length, struct contents *out)
{
    struct contents c = { 0 };
    unsigned refusal;

    if (length != MESSAGE_BYTES)
        return 1;
    if (message[MESSAGE_BYTES - 1] & 3)
        return 2;
    refusal = read_fields(message, &c);
    if (refusal == 0)
        *out = c;
    return refusal;
}

/* The message's 486 bits, cut out of a frame, with two zero bits after them. */
static void cut_message(const uint8_t frame[FRAME_BYTES], uint8_t message[MESSAGE_BYTES])
{
    for (int i = 0; i < MESSAGE_BYTES; i++)
        message[i] = (uint8_t)(frame[3 + i] << 4 | frame[4 + i] >> 4);
    message[MESSAGE_BYTES - 1] &= 0xFC;
}

unsigned ref_frame_prn(const uint8_t frame[FRAME_BYTES]) { return ref_get_bits(frame, 16, 6); }

unsigned ref_frame_type(const uint8_t frame[FRAME_BYTES]) { return ref_get_bits(frame, CODED_BIT, 6); }

static bool among_ten(unsigned prn) { return (prn >= 1 && prn <= 5) || (prn >= 59 && prn <= 63); }

/* A frame up to its contents. With a ledger `prn` is the ledger's; without one
 * it is -1 and the frame's PRN is not looked at. `out` and `detail` are all zero
 * when this begins; after a refusal `out` is nothing that counts. */
static unsigned read_frame(const uint8_t *frame, size_t length, int prn, struct contents *out,
                           struct detail *detail)
{
    uint8_t symbol[SYMBOLS], message[MESSAGE_BYTES];

    if (length != FRAME_BYTES)
        return 1;
    if (ref_get_bits(frame, 0, 16) != SYNC)
        return 3;
    if (prn >= 0 && !(among_ten((unsigned)prn) && ref_frame_prn(frame) == (unsigned)prn))
        return 4;
    if (ref_get_bits(frame, 22, 1) != 0)
        return 5;
    ref_symbols(frame, symbol);
    detail->failing = ref_failing(symbol, &detail->first);
    if (detail->failing != 0)
        return 6;
    cut_message(frame, message);
    return read_fields(message, out);
}

unsigned ref_read_frame_detail(const uint8_t *frame, size_t length, struct contents *out, struct detail *detail)
{
    struct contents c = { 0 };
    unsigned refusal;

    memset(detail, 0, sizeof *detail);
    refusal = read_frame(frame, length, -1, &c, detail);
    if (refusal == 0)
        *out = c;
    return refusal;
}

unsigned ref_read_frame(const uint8_t *frame, size_t length, struct contents *out)
{
    struct detail detail;
    return ref_read_frame_detail(frame, length, out, &detail);
}

/* ---- writing ---- */

static bool fits_signed(int32_t value, unsigned width)
{
    return value >= -(1 << (width - 1)) && value < 1 << (width - 1);
}

static bool orbit_fits(const struct orbit_record *o)
{
    return o->slot == 0 ||
           (o->iodn <= 1023 && o->iod_corr <= 7 && fits_signed(o->radial, 15) && fits_signed(o->along, 13) &&
            fits_signed(o->cross, 13) && ref_ura_code(o->ura) >= 0);
}

static bool clock_fits(const struct clock_record *c, unsigned kind)
{
    return (kind == 7 && c->slot == 0) || (c->iod_corr <= 7 && fits_signed(c->c0, 15));
}

/* Of a type 3 that ends by bit 462: it then has no more biases than there is room for. */
static bool biases_fit(const struct bias_part *part)
{
    const struct bias *bias = part->bias;

    if (part->iod_ssr > 3 || part->count > BIAS_SATS)
        return false;
    for (unsigned i = 0; i < part->count; i++) {
        unsigned count = biases_of(&part->sat[i]);
        if (count > 15)
            return false;
        for (unsigned k = 0; k < count; k++, bias++)
            if (bias->mode > 15 || !fits_signed(bias->value, 12))
                return false;
    }
    return true;
}

static bool codes_fit(const struct code_part *part)
{
    for (unsigned i = 0; i < CODES; i++)
        if (part->code[i] > 63)
            return false;
    return part->iod_ssr <= 3 && part->iodp <= 15 && part->sub <= 7;
}

/* Whether each field that refusals 8 to 12 do not speak of can be written. */
static bool fields_fit(const struct contents *c)
{
    if (has_mask_part(c) && (c->mask.iod_ssr > 3 || c->mask.iodp > 15 || c->mask.last))
        return false;
    if (clock_count(c) > 0 && c->clocks.iod_ssr > 3)
        return false;
    if (clock_count(c) > 0 && c->kind != 7 && c->clocks.iodp > 15)
        return false;
    if (c->kind == 4 && c->clocks.first > 31)
        return false;
    for (unsigned i = 0; i < clock_count(c); i++)
        if (!clock_fits(&c->clocks.record[i], c->kind))
            return false;
    if (orbit_count(c) > 0 && c->orbits.iod_ssr > 3)
        return false;
    for (unsigned i = 0; i < orbit_count(c); i++)
        if (!orbit_fits(&c->orbits.record[i]))
            return false;
    if (has_bias_part(c) && !biases_fit(&c->biases))
        return false;
    if (has_code_part(c) && !codes_fit(&c->codes))
        return false;
    return true;
}

static void write_orbits(struct writer *w, unsigned count, const struct orbit_part *part)
{
    put(w, 17, part->epoch);
    put(w, 4, 0);
    put(w, 2, part->iod_ssr);
    for (unsigned i = 0; i < count; i++) {
        const struct orbit_record *o = &part->record[i];
        if (o->slot == 0) {
            w->at += 69;
            continue;
        }
        put(w, 9, o->slot);
        put(w, 10, o->iodn);
        put(w, 3, o->iod_corr);
        put_signed(w, 15, o->radial);
        put_signed(w, 13, o->along);
        put_signed(w, 13, o->cross);
        put(w, 6, (uint32_t)ref_ura_code(o->ura));
    }
}

static void write_clocks(struct writer *w, unsigned kind, unsigned count, const struct clock_part *part)
{
    put(w, 17, part->epoch);
    put(w, 4, 0);
    put(w, 2, part->iod_ssr);
    if (kind != 7) {
        put(w, 4, part->iodp);
        put(w, kind == 4 ? 5 : 9, part->first);
    }
    for (unsigned i = 0; i < count; i++) {
        const struct clock_record *c = &part->record[i];
        if (kind == 7) {
            if (c->slot == 0) {
                w->at += 27;
                continue;
            }
            put(w, 9, c->slot);
        }
        put(w, 3, c->iod_corr);
        put_signed(w, 15, c->c0);
    }
}

static void write_mask(struct writer *w, const struct mask *mask)
{
    put(w, 17, mask->epoch);
    put(w, 4, 0);
    put(w, 2, mask->iod_ssr);
    put(w, 4, mask->iodp);
    for (int slot = 1; slot <= SLOTS; slot++)
        put(w, 1, mask->set[slot]);
}

static void write_biases(struct writer *w, const struct bias_part *part)
{
    const struct bias *bias = part->bias;

    put(w, 17, part->epoch);
    put(w, 4, 0);
    put(w, 2, part->iod_ssr);
    put(w, 5, part->count);
    for (unsigned i = 0; i < part->count; i++) {
        const struct bias_sat *sat = &part->sat[i];
        put(w, 9, sat->slot);
        put(w, 4, biases_of(sat));
        for (unsigned k = 0; k < biases_of(sat); k++, bias++) {
            put(w, 4, bias->mode);
            put_signed(w, 12, bias->value);
        }
    }
}

static void write_codes(struct writer *w, const struct code_part *part)
{
    put(w, 17, part->epoch);
    put(w, 4, 0);
    put(w, 2, part->iod_ssr);
    put(w, 4, part->iodp);
    put(w, 3, part->sub);
    for (unsigned i = 0; i < CODES; i++)
        put(w, 6, part->code[i]);
}

unsigned ref_write(const struct contents *in, uint8_t *room, size_t length)
{
    struct writer w = { room, 0 };
    unsigned refusal;

    if (length != MESSAGE_BYTES)
        return 1;
    if (!kind_known(in->kind))
        return 8;
    if ((in->kind == 6 || in->kind == 7) &&
        ref_end(in->kind, clock_count(in), orbit_count(in)) > CHECKED_BITS)
        return 9;
    if (has_bias_part(in) && ref_bias_end(&in->biases) > CHECKED_BITS)
        return 9;
    refusal = judge(in);
    if (refusal != 0)
        return refusal;
    if (!fields_fit(in))
        return 16;

    memset(room, 0, MESSAGE_BYTES);
    put(&w, 6, in->kind);
    if (in->kind == 6 || in->kind == 7) {
        put(&w, 5, clock_count(in));
        put(&w, 3, orbit_count(in));
    }
    if (has_mask_part(in))
        write_mask(&w, &in->mask);
    if (clock_count(in) > 0)
        write_clocks(&w, in->kind, clock_count(in), &in->clocks);
    if (orbit_count(in) > 0)
        write_orbits(&w, orbit_count(in), &in->orbits);
    if (has_bias_part(in))
        write_biases(&w, &in->biases);
    if (has_code_part(in))
        write_codes(&w, &in->codes);
    ref_put_bits(room, CHECKED_BITS, 24, ref_check(room));
    return 0;
}

/* ---- the ledger ---- */

unsigned ref_open(struct ledger *ledger, unsigned prn)
{
    if (!among_ten(prn))
        return 4;
    memset(ledger, 0, sizeof *ledger);
    ledger->prn = (uint8_t)prn;
    return 0;
}

static bool masks_differ(const struct mask *a, const struct mask *b)
{
    if (a->iod_ssr != b->iod_ssr || a->iodp != b->iodp)
        return true;
    for (int slot = 1; slot <= SLOTS; slot++)
        if (a->set[slot] != b->set[slot])
            return true;
    return false;
}

unsigned long ref_codes[CODE_EVENTS];

static void take_mask(struct ledger *ledger, const struct mask *mask)
{
    /* Clocks in force that came by place were placed by the mask in force, and so were all codes. */
    bool other = !ledger->has_mask || masks_differ(&ledger->mask, mask);
    for (int slot = 1; slot <= SLOTS; slot++)
        ref_codes[other ? CODE_DROPPED : CODE_STAYS_BY_MASK] += ledger->code[slot].held;
    if (other)
        for (int slot = 1; slot <= SLOTS; slot++) {
            if (ledger->clock[slot].by_place)
                ledger->clock[slot].held = ledger->clock[slot].by_place = false;
            ledger->code[slot].held = ledger->code[slot].missed = false;
        }
    ledger->has_mask = true;
    ledger->mask = *mask;
    ledger->places = 0;
    for (int slot = 1; slot <= SLOTS; slot++)
        if (mask->set[slot])
            ledger->slot_at[++ledger->places] = (uint8_t)slot;
}

unsigned long ref_met[MEETINGS];

/* A record meets the one that is held for its slot: whether it replaces it. With
 * equal IOD SSR and IOD Corr it does only if its epoch is, around the clock, less
 * than half a day ahead; with another issue, and where none is held, always. */
static bool replaces(bool held, unsigned held_ssr, unsigned held_corr, uint32_t held_epoch, unsigned ssr, unsigned corr,
                     uint32_t epoch)
{
    const uint32_t day = LAST_EPOCH + 1;
    uint32_t ahead = epoch >= held_epoch ? epoch - held_epoch : day - (held_epoch - epoch);

    if (!held) {
        ref_met[NONE_HELD]++;
        ref_met[OLDER_THAN_DROPPED] += held_epoch != 0 && held_ssr == ssr && held_corr == corr && ahead >= day / 2;
    } else if (held_ssr != ssr)
        ref_met[ahead < day / 2 ? SSR_DIFFERS : SSR_DIFFERS_OLDER]++;
    else if (held_corr != corr)
        ref_met[ahead < day / 2 ? CORR_DIFFERS : CORR_DIFFERS_OLDER]++;
    else {
        ref_met[ahead < day / 2 ? NEWER : OLDER]++;
        ref_met[EPOCHS_EQUAL] += ahead == 0;
        ref_met[AHEAD_43199] += ahead == 43199;
        ref_met[AHEAD_43200] += ahead == 43200;
        ref_met[AHEAD_43201] += ahead == 43201;
        ref_met[OVER_MIDNIGHT] += ahead < day / 2 && epoch < held_epoch;
        return ahead < day / 2;
    }
    return true;
}

static void take_clock(struct ledger *ledger, unsigned slot, bool by_place, const struct clock_part *part,
                       const struct clock_record *record)
{
    struct held_clock *held = &ledger->clock[slot];
    if (!replaces(held->held, held->iod_ssr, held->iod_corr, held->epoch, part->iod_ssr, record->iod_corr, part->epoch)) {
        ref_met[UNUSABLE_HOLDS_OFF] += held->c0 == -16384 && record->c0 != -16384;
        return;
    }
    held->held = true;
    held->by_place = by_place;
    held->epoch = part->epoch & EPOCH_BITS;
    held->iod_ssr = part->iod_ssr;
    held->iod_corr = record->iod_corr;
    held->c0 = record->c0;
}

static void take_orbits(struct ledger *ledger, const struct orbit_part *part)
{
    for (unsigned i = 0; i < part->count; i++) {
        const struct orbit_record *record = &part->record[i];
        if (record->slot != 0) {
            struct held_orbit *held = &ledger->orbit[record->slot];
            struct held_code *code = &ledger->code[record->slot];
            if (!replaces(held->held, held->iod_ssr, held->record.iod_corr, held->epoch, part->iod_ssr, record->iod_corr,
                          part->epoch)) {
                ref_codes[CODE_OUTLIVES_ORBIT] += code->held;
                continue;
            }
            ref_codes[CODE_ENDED] += code->held;
            ref_codes[ORBIT_AFTER_MISSED] += code->missed;
            code->held = code->missed = false;
            held->held = true;
            held->epoch = part->epoch & EPOCH_BITS;
            held->iod_ssr = part->iod_ssr;
            held->record = *record;
        }
    }
}

/* The codes of a type 5, by place. One for a slot without an orbit in force is lost. */
static void take_codes(struct ledger *ledger, const struct code_part *part)
{
    for (unsigned j = 1; j <= CODES; j++) {
        unsigned place = 70u * part->sub + j, slot, code = part->code[j - 1];
        const struct held_orbit *orbit;
        if (ledger->places < place) {
            ref_codes[CODE_FILLER]++;
            continue;
        }
        slot = ledger->slot_at[place];
        orbit = &ledger->orbit[slot];
        ref_codes[CODE_LAST_PLACE] += place == ledger->places;
        if (!orbit->held) {
            ref_codes[CODE_WITHOUT_ORBIT]++;
            ledger->code[slot].missed = true;
            continue;
        }
        ref_codes[ledger->code[slot].held ? CODE_AGAIN : CODE_KEPT]++;
        ref_codes[CODE_OLDER] += ref_after(part->epoch, orbit->epoch) >= (LAST_EPOCH + 1) / 2;
        ref_codes[CODE_TO_UNKNOWN] += code == 0 && orbit->record.ura.kind != URA_UNKNOWN;
        ref_codes[CODE_FROM_UNKNOWN] += code != 0 && orbit->record.ura.kind == URA_UNKNOWN;
        ref_codes[CODE_63] += code == 63;
        ledger->code[slot].held = true;
        ledger->code[slot].code = (uint8_t)code;
    }
}

/* Refusals 14, 15 and 19. */
static unsigned judge_places(const struct ledger *ledger, const struct contents *c)
{
    const struct clock_part *part = &c->clocks;
    const struct code_part *codes = &c->codes;
    unsigned place;

    if (has_code_part(c) &&
        (!ledger->has_mask || codes->iod_ssr != ledger->mask.iod_ssr || codes->iodp != ledger->mask.iodp))
        return 14;
    if (has_code_part(c))
        return 70u * codes->sub + 1 > ledger->places ? 15 : 0;
    if (c->kind != 4 && !(c->kind == 6 && part->count > 0))
        return 0;
    if (!ledger->has_mask || part->iod_ssr != ledger->mask.iod_ssr || part->iodp != ledger->mask.iodp)
        return 14;
    place = c->kind == 4 ? 23u * part->first + 1 : part->first + part->count - 1u;
    if (place > ledger->places)
        return c->kind == 4 ? 15 : 19;
    return 0;
}

unsigned ref_take_detail(struct ledger *ledger, const uint8_t *frame, size_t length, struct detail *detail)
{
    struct contents c = { 0 };
    unsigned refusal;

    memset(detail, 0, sizeof *detail);
    refusal = read_frame(frame, length, ledger->prn, &c, detail);
    if (refusal == 0)
        refusal = judge_places(ledger, &c);
    if (refusal == 19)
        detail->places = ledger->places;
    if (refusal != 0)
        return refusal;
    if (c.kind == 1)
        take_mask(ledger, &c.mask);
    if (has_code_part(&c))
        take_codes(ledger, &c.codes);
    for (unsigned i = 0; i < c.clocks.count; i++) {
        const struct clock_record *record = &c.clocks.record[i];
        if (c.kind == 7) {
            if (record->slot != 0)
                take_clock(ledger, record->slot, false, &c.clocks, record);
        } else {
            unsigned place = c.kind == 4 ? 23u * c.clocks.first + 1 + i : c.clocks.first + i;
            if (place <= ledger->places)
                take_clock(ledger, ledger->slot_at[place], true, &c.clocks, record);
        }
    }
    take_orbits(ledger, &c.orbits);
    return 0;
}

unsigned ref_take(struct ledger *ledger, const uint8_t *frame, size_t length)
{
    struct detail detail;
    return ref_take_detail(ledger, frame, length, &detail);
}

/* ---- torn logs, and the epochs of what was accepted ---- */

/* Whether the bytes begin with a frame: sync and parity alone are looked at. */
static bool frame_stands(const uint8_t *bytes, size_t n)
{
    uint8_t symbol[SYMBOLS], first;
    if (n < FRAME_BYTES || ref_get_bits(bytes, 0, 16) != SYNC)
        return false;
    ref_symbols(bytes, symbol);
    return ref_failing(symbol, &first) == 0;
}

size_t ref_next_piece(const uint8_t *bytes, size_t n)
{
    if (frame_stands(bytes, n))
        return FRAME_BYTES;
    for (size_t q = 1; q <= FRAME_BYTES && q <= n; q++)
        if (frame_stands(bytes + q, n - q))
            return q;
    return n < FRAME_BYTES ? n : FRAME_BYTES;
}

bool ref_epoch(const struct contents *c, uint32_t *epoch)
{
    if (has_mask_part(c))
        *epoch = c->mask.epoch;
    else if (clock_count(c) > 0)
        *epoch = c->clocks.epoch;
    else if (orbit_count(c) > 0)
        *epoch = c->orbits.epoch;
    else if (has_bias_part(c))
        *epoch = c->biases.epoch;
    else if (has_code_part(c))
        *epoch = c->codes.epoch;
    else
        return false;
    return true;
}

uint32_t ref_after(uint32_t later, uint32_t epoch) { return (later + LAST_EPOCH + 1 - epoch) % (LAST_EPOCH + 1); }

/* The URA of the orbit in force for a slot, with the code that replaces its own. */
static struct ura ura_in_force(const struct ledger *ledger, unsigned slot)
{
    const struct held_code *code = &ledger->code[slot];
    return code->held ? ref_ura(code->code) : ledger->orbit[slot].record.ura;
}

unsigned ref_reason(const struct ledger *ledger, const uint16_t *issues, unsigned slot)
{
    const struct held_orbit *orbit = &ledger->orbit[slot];
    const struct held_clock *clock = &ledger->clock[slot];
    const struct orbit_record *o = &orbit->record;
    uint8_t ssr = ledger->mask.iod_ssr;

    if (!orbit->held)
        return NO_ORBIT;
    if (!clock->held)
        return NO_CLOCK;
    if (orbit->iod_ssr != ssr || clock->iod_ssr != ssr)
        return OTHER_SSR;
    if (o->iod_corr != clock->iod_corr)
        return OTHER_CORR;
    if (ura_in_force(ledger, slot).kind == URA_UNKNOWN)
        return NO_URA;
    if (o->radial == -16384 || o->along == -4096 || o->cross == -4096 || clock->c0 == -16384)
        return UNUSABLE;
    return issues[slot - 1] != o->iodn ? OTHER_ISSUE : HAS_ROW;
}

/* ---- the list ---- */

static bool issue_wrong(const uint16_t *issues)
{
    for (int i = 0; i < SLOTS; i++)
        if (issues[i] > LAST_ISSUE && issues[i] != NO_ISSUE)
            return true;
    return false;
}

/* Refusals 1 and 17. */
static unsigned judge_lists(const uint16_t *issues, size_t n)
{
    if (n != SLOTS)
        return 1;
    return issue_wrong(issues) ? 17 : 0;
}

static bool qualifies(const struct ledger *ledger, const uint16_t *issues, unsigned slot)
{
    const struct held_orbit *orbit = &ledger->orbit[slot];
    const struct held_clock *clock = &ledger->clock[slot];

    return slot <= ASSIGNED_SLOTS && ledger->has_mask && ledger->mask.set[slot] && orbit->held && clock->held &&
           orbit->iod_ssr == ledger->mask.iod_ssr && clock->iod_ssr == ledger->mask.iod_ssr &&
           orbit->record.iod_corr == clock->iod_corr && ura_in_force(ledger, slot).kind != URA_UNKNOWN &&
           orbit->record.radial != -16384 && orbit->record.along != -4096 && orbit->record.cross != -4096 &&
           clock->c0 != -16384 && issues[slot - 1] == orbit->record.iodn;
}

static void fill_row(const struct ledger *ledger, unsigned slot, struct row *row)
{
    static const uint8_t before[] = { 0, 0, 63, 100, 137 }; /* last slot before each system */
    const struct orbit_record *orbit = &ledger->orbit[slot].record;

    row->slot = (uint8_t)slot;
    row->system = slot <= 63 ? 1 : slot <= 100 ? 2 : slot <= 137 ? 3 : 4;
    row->number = (uint8_t)(slot - before[row->system]);
    row->iodn = orbit->iodn;
    row->iod_corr = orbit->iod_corr;
    row->radial = orbit->radial * 16;
    row->along = orbit->along * 64;
    row->cross = orbit->cross * 64;
    row->clock = ledger->clock[slot].c0 * 16;
    row->ura = ura_in_force(ledger, slot);
}

unsigned ref_count(const struct ledger *ledger, const uint16_t *issues, size_t n, size_t *count)
{
    unsigned refusal = judge_lists(issues, n);
    if (refusal != 0)
        return refusal;
    *count = 0;
    for (unsigned slot = 1; slot <= ASSIGNED_SLOTS; slot++)
        if (qualifies(ledger, issues, slot))
            ++*count;
    return 0;
}

unsigned ref_rows(const struct ledger *ledger, const uint16_t *issues, size_t n,
                  struct row rows[ASSIGNED_SLOTS], size_t *count)
{
    unsigned refusal = judge_lists(issues, n);
    if (refusal != 0)
        return refusal;
    *count = 0;
    for (unsigned slot = 1; slot <= ASSIGNED_SLOTS; slot++)
        if (qualifies(ledger, issues, slot))
            fill_row(ledger, slot, &rows[(*count)++]);
    return 0;
}

unsigned ref_row_at(const struct ledger *ledger, const uint16_t *issues, size_t n, size_t position_asked,
                    struct row *row)
{
    size_t seen = 0;
    unsigned refusal = judge_lists(issues, n);

    if (refusal != 0)
        return refusal;
    for (unsigned slot = 1; slot <= ASSIGNED_SLOTS; slot++)
        if (qualifies(ledger, issues, slot) && ++seen == position_asked) {
            fill_row(ledger, slot, row);
            return 0;
        }
    return 18;
}

unsigned ref_row_of(const struct ledger *ledger, const uint16_t *issues, size_t n, unsigned slot,
                    struct row *row)
{
    if (n != SLOTS)
        return 1;
    if (slot == 0 || slot > SLOTS)
        return 11;
    if (issue_wrong(issues))
        return 17;
    if (!qualifies(ledger, issues, slot))
        return 18;
    fill_row(ledger, slot, row);
    return 0;
}

/* ---- making frames, and checking them ---- */

/* share[i][v]: what message symbol i with value v adds to the 81 parity
 * symbols, a byte each, eight to a word. lift[p][g]: what parity symbol p needs
 * so that the sum of group g alone rises by 1. */
enum { SHARE_WORDS = 11 };
static uint64_t share[MESSAGE_SYMBOLS][64][SHARE_WORDS];
static uint8_t lift[GROUPS][GROUPS];
static bool solved;

static uint8_t inverse(uint8_t a)
{
    uint8_t b = 1;
    while (ref_times(a, b) != 1)
        b++;
    return b;
}

/* row += times * other, over all columns. */
static void add_row(uint8_t *row, const uint8_t *other, uint8_t times)
{
    for (int j = 0; j < SYMBOLS + GROUPS; j++)
        row[j] ^= ref_times(other[j], times);
}

/* Solves the 81 groups for the parity symbols. The matrix, with a unit matrix
 * put to its right, is brought to the form in which the parity symbols' part is
 * the unit matrix. Row p then has, in the message symbols' part, their factors
 * in parity symbol p and, in the part put to the right, what it needs to lift
 * the sum of a group. */
static void solve(void)
{
    static uint8_t h[GROUPS][SYMBOLS + GROUPS];

    memset(h, 0, sizeof h);
    for (int g = 0; g < GROUPS; g++) {
        for (int k = 0; k < 4; k++)
            h[g][position[g][k]] = factor[g][k];
        h[g][SYMBOLS + g] = 1;
    }
    for (int p = 0; p < GROUPS; p++) {
        int column = MESSAGE_SYMBOLS + p, pivot = p;
        while (pivot < GROUPS && h[pivot][column] == 0)
            pivot++;
        if (pivot == GROUPS)
            abort(); /* the tables are not those of the document */
        if (pivot != p)
            add_row(h[p], h[pivot], 1);
        add_row(h[p], h[p], inverse(h[p][column]) ^ 1); /* row + (a + 1) row = a row */
        for (int i = 0; i < GROUPS; i++)
            if (i != p && h[i][column] != 0)
                add_row(h[i], h[p], h[i][column]);
    }
    for (int i = 0; i < MESSAGE_SYMBOLS; i++)
        for (int v = 0; v < 64; v++) {
            uint8_t column[SHARE_WORDS * 8] = { 0 };
            for (int p = 0; p < GROUPS; p++)
                column[p] = ref_times(h[p][i], (uint8_t)v);
            memcpy(share[i][v], column, sizeof column);
        }
    for (int p = 0; p < GROUPS; p++)
        memcpy(lift[p], &h[p][SYMBOLS], GROUPS);
    solved = true;
}

void ref_encode(const uint8_t message[MESSAGE_BYTES], unsigned prn, unsigned flags,
                uint8_t frame[FRAME_BYTES])
{
    uint64_t sum[SHARE_WORDS] = { 0 };
    uint8_t parity[SHARE_WORDS * 8];

    if (!solved)
        solve();
    memset(frame, 0, FRAME_BYTES);
    ref_put_bits(frame, 0, 16, SYNC);
    ref_put_bits(frame, 16, 6, prn);
    ref_put_bits(frame, 22, 6, flags);
    for (int i = 0; i < MESSAGE_SYMBOLS; i++) {
        uint32_t symbol = ref_get_bits(message, 6 * (size_t)i, 6);
        ref_put_bits(frame, CODED_BIT + 6 * (size_t)i, 6, symbol);
        for (int k = 0; k < SHARE_WORDS; k++)
            sum[k] ^= share[i][symbol][k];
    }
    memcpy(parity, sum, sizeof parity);
    for (int p = 0; p < GROUPS; p++)
        ref_put_bits(frame, CODED_BIT + 6 * (size_t)(MESSAGE_SYMBOLS + p), 6, parity[p]);
}

unsigned ref_make_frame(const uint8_t *message, size_t length, unsigned prn, unsigned flags, uint8_t *room,
                        size_t room_length)
{
    if (length != MESSAGE_BYTES || room_length != FRAME_BYTES)
        return 1;
    if (ref_get_bits(message, 486, 2) != 0)
        return 2;
    if (!among_ten(prn))
        return 4;
    if (flags > 63)
        return 16;
    ref_encode(message, prn, flags, room);
    return 0;
}

/* Whether the first 81 symbols of a frame are those of a message. */
static bool message_kept(const uint8_t message[MESSAGE_BYTES], const uint8_t symbol[SYMBOLS])
{
    for (int i = 0; i < MESSAGE_SYMBOLS; i++)
        if (symbol[i] != ref_get_bits(message, 6 * (size_t)i, 6))
            return false;
    return true;
}

unsigned ref_check_frame(const uint8_t *message, size_t length, const uint8_t *frame, size_t frame_length,
                         struct detail *detail)
{
    uint8_t symbol[SYMBOLS];

    memset(detail, 0, sizeof *detail);
    if (length != MESSAGE_BYTES || frame_length != FRAME_BYTES)
        return 1;
    if (ref_get_bits(message, 486, 2) != 0)
        return 2;
    if (ref_get_bits(frame, 0, 16) != SYNC)
        return 3;
    ref_symbols(frame, symbol);
    detail->failing = ref_failing(symbol, &detail->first);
    if (detail->failing != 0)
        return 6;
    return message_kept(message, symbol) ? 0 : 38;
}

void ref_spoil(uint8_t frame[FRAME_BYTES], unsigned group, uint8_t value)
{
    if (!solved)
        solve();
    for (int p = 0; p < GROUPS; p++) {
        size_t at = CODED_BIT + 6 * (size_t)(MESSAGE_SYMBOLS + p);
        uint32_t symbol = ref_get_bits(frame, at, 6);
        ref_put_bits(frame, at, 6, symbol ^ ref_times(lift[p][group], value));
    }
}
