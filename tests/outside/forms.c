/* See forms.h. */
#include "forms.h"

#include <string.h>

static uint8_t *put(uint8_t *at, int size, uint32_t value)
{
    for (int i = 0; i < size; i++)
        at[i] = (uint8_t)(value >> 8 * (size - 1 - i));
    return at + size;
}

static uint32_t get(const uint8_t **at, int size)
{
    uint32_t value = 0;
    for (int i = 0; i < size; i++)
        value = value << 8 | (*at)[i];
    *at += size;
    return value;
}

static int16_t get_signed(const uint8_t **at)
{
    int32_t value = (int32_t)get(at, 2);
    return (int16_t)(value < 32768 ? value : value - 65536);
}

void row_to_bytes(const struct row *row, uint8_t bytes[ROW_FORM_BYTES])
{
    uint8_t *at = bytes;
    at = put(at, 1, row->slot);
    at = put(at, 1, row->system);
    at = put(at, 1, row->number);
    at = put(at, 2, row->iodn);
    at = put(at, 1, row->iod_corr);
    at = put(at, 4, (uint32_t)row->radial);
    at = put(at, 4, (uint32_t)row->along);
    at = put(at, 4, (uint32_t)row->cross);
    at = put(at, 4, (uint32_t)row->clock);
    at = put(at, 1, row->ura.kind);
    put(at, 4, row->ura.quarters);
}

void sheet_header_to_bytes(const struct sheet *sheet, uint8_t bytes[SHEET_HEADER_FORM_BYTES])
{
    uint8_t *at = bytes;
    at = put(at, 1, sheet->prn);
    at = put(at, 1, sheet->iod_ssr);
    at = put(at, 1, sheet->iodp);
    put(at, 2, (uint32_t)sheet->count);
}

void contents_to_bytes(const struct contents *c, uint8_t bytes[CONTENTS_FORM_BYTES])
{
    uint8_t *at = bytes;

    at = put(at, 1, c->kind);
    at = put(at, 4, c->mask.epoch);
    at = put(at, 1, c->mask.iod_ssr);
    at = put(at, 1, c->mask.iodp);
    for (int first = 1; first <= SLOTS; first += 8) {
        unsigned byte = 0;
        for (int slot = first; slot < first + 8; slot++)
            byte = 2 * byte + (slot <= SLOTS ? c->mask.set[slot] : c->mask.last);
        at = put(at, 1, byte);
    }

    at = put(at, 4, c->clocks.epoch);
    at = put(at, 1, c->clocks.iod_ssr);
    at = put(at, 1, c->clocks.iodp);
    at = put(at, 2, c->clocks.first);
    at = put(at, 1, c->clocks.count);
    for (int i = 0; i < CLOCKS; i++) {
        const struct clock_record *r = &c->clocks.record[i];
        at = put(at, 2, r->slot);
        at = put(at, 1, r->iod_corr);
        at = put(at, 2, (uint32_t)r->c0);
    }

    at = put(at, 4, c->orbits.epoch);
    at = put(at, 1, c->orbits.iod_ssr);
    at = put(at, 1, c->orbits.count);
    for (int i = 0; i < ORBITS; i++) {
        const struct orbit_record *r = &c->orbits.record[i];
        at = put(at, 2, r->slot);
        at = put(at, 2, r->iodn);
        at = put(at, 1, r->iod_corr);
        at = put(at, 2, (uint32_t)r->radial);
        at = put(at, 2, (uint32_t)r->along);
        at = put(at, 2, (uint32_t)r->cross);
        at = put(at, 1, r->ura.kind);
        at = put(at, 4, r->ura.quarters);
    }

    at = put(at, 4, c->biases.epoch);
    at = put(at, 1, c->biases.iod_ssr);
    at = put(at, 1, c->biases.count);
    for (int i = 0; i < BIAS_SATS; i++) {
        at = put(at, 2, c->biases.sat[i].slot);
        at = put(at, 1, c->biases.sat[i].count);
    }
    for (int i = 0; i < BIASES; i++) {
        at = put(at, 1, c->biases.bias[i].mode);
        at = put(at, 2, (uint32_t)c->biases.bias[i].value);
    }

    at = put(at, 4, c->codes.epoch);
    at = put(at, 1, c->codes.iod_ssr);
    at = put(at, 1, c->codes.iodp);
    at = put(at, 1, c->codes.sub);
    for (int i = 0; i < CODES; i++)
        at = put(at, 1, c->codes.code[i]);
}

void contents_from_bytes(const uint8_t bytes[CONTENTS_FORM_BYTES], struct contents *c)
{
    const uint8_t *at = bytes;

    memset(c, 0, sizeof *c);
    c->kind = (uint8_t)get(&at, 1);
    c->mask.epoch = get(&at, 4);
    c->mask.iod_ssr = (uint8_t)get(&at, 1);
    c->mask.iodp = (uint8_t)get(&at, 1);
    for (int first = 1; first <= SLOTS; first += 8) {
        unsigned byte = get(&at, 1);
        for (int slot = first; slot < first + 8; slot++)
            *(slot <= SLOTS ? &c->mask.set[slot] : &c->mask.last) = byte >> (first + 7 - slot) & 1;
    }

    c->clocks.epoch = get(&at, 4);
    c->clocks.iod_ssr = (uint8_t)get(&at, 1);
    c->clocks.iodp = (uint8_t)get(&at, 1);
    c->clocks.first = (uint16_t)get(&at, 2);
    c->clocks.count = (uint8_t)get(&at, 1);
    for (int i = 0; i < CLOCKS; i++) {
        struct clock_record *r = &c->clocks.record[i];
        r->slot = (uint16_t)get(&at, 2);
        r->iod_corr = (uint8_t)get(&at, 1);
        r->c0 = get_signed(&at);
    }

    c->orbits.epoch = get(&at, 4);
    c->orbits.iod_ssr = (uint8_t)get(&at, 1);
    c->orbits.count = (uint8_t)get(&at, 1);
    for (int i = 0; i < ORBITS; i++) {
        struct orbit_record *r = &c->orbits.record[i];
        r->slot = (uint16_t)get(&at, 2);
        r->iodn = (uint16_t)get(&at, 2);
        r->iod_corr = (uint8_t)get(&at, 1);
        r->radial = get_signed(&at);
        r->along = get_signed(&at);
        r->cross = get_signed(&at);
        r->ura.kind = (uint8_t)get(&at, 1);
        r->ura.quarters = get(&at, 4);
    }

    c->biases.epoch = get(&at, 4);
    c->biases.iod_ssr = (uint8_t)get(&at, 1);
    c->biases.count = (uint8_t)get(&at, 1);
    for (int i = 0; i < BIAS_SATS; i++) {
        c->biases.sat[i].slot = (uint16_t)get(&at, 2);
        c->biases.sat[i].count = (uint8_t)get(&at, 1);
    }
    for (int i = 0; i < BIASES; i++) {
        c->biases.bias[i].mode = (uint8_t)get(&at, 1);
        c->biases.bias[i].value = get_signed(&at);
    }

    c->codes.epoch = get(&at, 4);
    c->codes.iod_ssr = (uint8_t)get(&at, 1);
    c->codes.iodp = (uint8_t)get(&at, 1);
    c->codes.sub = (uint8_t)get(&at, 1);
    for (int i = 0; i < CODES; i++)
        c->codes.code[i] = (uint8_t)get(&at, 1);
}

uint32_t detail_to_number(unsigned refusal, const struct detail *detail)
{
    if (refusal == 6)
        return 6 + 256 * (uint32_t)detail->first + 65536 * (uint32_t)detail->failing;
    if (refusal == 19)
        return 19 + 256 * (uint32_t)detail->places;
    return refusal;
}

/* Of 0, -1, 1, -2, 2 .. the one that stands at a number, from 0. */
static int16_t zigzag(uint32_t at) { return (int16_t)(at % 2 == 0 ? (int32_t)(at / 2) : -(int32_t)(at / 2) - 1); }

static void clock_from_bytes(const uint8_t *at, struct held_clock *clock)
{
    const uint8_t *epoch = at + C_EPOCH, *c0 = at + C_C0;
    clock->held = at[C_HELD] == 1;
    clock->by_place = clock->held && at[C_BY_PLACE] == 1;
    clock->epoch = get(&epoch, 4) % 86400 & ((1 << 17) - 1);
    clock->iod_ssr = at[C_SSR];
    clock->iod_corr = at[C_CORR];
    clock->c0 = zigzag(get(&c0, 2));
}

static void orbit_from_bytes(const uint8_t *at, struct held_orbit *orbit)
{
    const uint8_t *epoch = at + O_EPOCH, *iodn = at + O_IODN, *values = at + O_RADIAL, *quarters = at + O_QUARTERS;
    struct orbit_record *r = &orbit->record;
    orbit->held = at[O_HELD] == 1;
    orbit->epoch = get(&epoch, 4) % 86400 & ((1 << 17) - 1);
    orbit->iod_ssr = at[O_SSR];
    r->iodn = (uint16_t)get(&iodn, 2);
    r->iod_corr = at[O_CORR];
    r->radial = zigzag(get(&values, 2));
    r->along = zigzag(get(&values, 2));
    r->cross = zigzag(get(&values, 2));
    r->ura.kind = at[O_URA] == 1 ? URA_QUARTERS : at[O_URA] == 2 ? URA_ABOVE : URA_UNKNOWN;
    r->ura.quarters = r->ura.kind == URA_QUARTERS ? get(&quarters, 4) : 0;
}

void ledger_from_bytes(const uint8_t bytes[LEDGER_FORM_BYTES], struct ledger *ledger)
{
    memset(ledger, 0, sizeof *ledger);
    ledger->prn = bytes[L_PRN];
    ledger->has_mask = bytes[L_HAS_MASK] == 1;
    ledger->mask.iod_ssr = bytes[L_SSR];
    ledger->mask.iodp = bytes[L_IODP];
    for (int slot = 1; slot <= SLOTS; slot++) {
        struct held_orbit *orbit = &ledger->orbit[slot];
        ledger->mask.set[slot] = bytes[L_MASK + (slot - 1) / 8] >> (7 - (slot - 1) % 8) & 1;
        if (ledger->has_mask && ledger->mask.set[slot])
            ledger->slot_at[++ledger->places] = (uint8_t)slot;
        clock_from_bytes(bytes + L_CLOCKS + L_CLOCK_BYTES * (slot - 1), &ledger->clock[slot]);
        orbit_from_bytes(bytes + L_ORBITS + L_ORBIT_BYTES * (slot - 1), orbit);
        orbit->record.slot = (uint16_t)slot;
        ledger->code[slot].held = bytes[L_CODES + L_CODE_BYTES * (slot - 1) + K_HELD] == 1;
        ledger->code[slot].code = bytes[L_CODES + L_CODE_BYTES * (slot - 1) + K_CODE];
    }
}

uint32_t beside_to_number(unsigned refusal, size_t beside) { return refusal + 256 * (uint32_t)beside; }
