/* See table.h. */
#include "table.h"

#include "sheet.h"

#include <string.h>

const uint8_t the_ten[TEN] = { 1, 2, 3, 4, 5, 59, 60, 61, 62, 63 };

unsigned ref_place_among_ten(unsigned prn)
{
    unsigned place = 0;
    while (place < TEN && the_ten[place] != prn)
        place++;
    return place;
}

/* ---- rooms ---- */

unsigned ref_table_room(const struct table *table, unsigned prn)
{
    unsigned place = ref_place_among_ten(prn);
    return place < TEN && table->of[place].open ? table->of[place].room : NO_ROOM;
}

const struct ledger *ref_table_ledger(const struct table *table, unsigned prn)
{
    return ref_table_room(table, prn) == NO_ROOM ? NULL : &table->of[ref_place_among_ten(prn)].ledger;
}

/* The first room that no PRN has; NO_ROOM if there is none. */
static unsigned free_room(const struct table *table)
{
    bool used[ROOMS] = { false };
    unsigned room = 0;
    for (unsigned place = 0; place < TEN; place++)
        if (table->of[place].open)
            used[table->of[place].room] = true;
    while (room < ROOMS && used[room])
        room++;
    return room;
}

unsigned ref_table_open(struct table *table, unsigned prn)
{
    unsigned place = ref_place_among_ten(prn), room = free_room(table);

    if (place == TEN)
        return 4;
    if (table->of[place].open)
        return 28;
    if (room == NO_ROOM)
        return 29;
    table->of[place].open = true;
    table->of[place].room = room;
    return ref_open(&table->of[place].ledger, prn);
}

unsigned ref_table_close(struct table *table, unsigned prn)
{
    if (ref_table_room(table, prn) == NO_ROOM)
        return 30;
    table->of[ref_place_among_ten(prn)].open = false;
    return 0;
}

/* ---- frames ---- */

unsigned ref_table_take(struct table *table, const uint8_t *frame, size_t length, struct detail *detail)
{
    *detail = (struct detail){ 0 };
    if (length != FRAME_BYTES)
        return 1;
    if (ref_get_bits(frame, 0, 16) != 0xEB90)
        return 3;
    if (ref_table_room(table, ref_frame_prn(frame)) == NO_ROOM)
        return 4;
    return ref_take_detail(&table->of[ref_place_among_ten(ref_frame_prn(frame))].ledger, frame, length, detail);
}

/* ---- questions ---- */

enum { ANY_SLOT = 1 };

/* What is wrong with a question, whoever it is put to: 1, 11, 17; then 30, if it is
 * put to a PRN that is not open; else 0. */
static unsigned judge_question(const struct table *table, unsigned prn, const uint16_t *issues, size_t n, unsigned slot)
{
    if (n != SLOTS)
        return 1;
    if (slot == 0 || slot > SLOTS)
        return 11;
    for (size_t i = 0; i < n; i++)
        if (issues[i] > LAST_ISSUE && issues[i] != NO_ISSUE)
            return 17;
    return ref_table_room(table, prn) == NO_ROOM ? 30 : 0;
}

unsigned ref_table_rows(const struct table *table, unsigned prn, const uint16_t *issues, size_t n,
                        struct row rows[ASSIGNED_SLOTS], size_t *count)
{
    unsigned refusal = judge_question(table, prn, issues, n, ANY_SLOT);
    return refusal != 0 ? refusal : ref_rows(ref_table_ledger(table, prn), issues, n, rows, count);
}

unsigned ref_table_row(const struct table *table, unsigned prn, const uint16_t *issues, size_t n, unsigned slot,
                       struct row *row)
{
    unsigned refusal = judge_question(table, prn, issues, n, slot);
    return refusal != 0 ? refusal : ref_row_of(ref_table_ledger(table, prn), issues, n, slot, row);
}

unsigned ref_table_write_sheet(const struct table *table, unsigned prn, const uint16_t *issues, size_t n, uint8_t *room,
                               size_t length, size_t *written)
{
    unsigned refusal = judge_question(table, prn, issues, n, ANY_SLOT);
    return refusal != 0 ? refusal : ref_write_sheet(ref_table_ledger(table, prn), issues, n, room, length, written);
}

unsigned ref_table_check_sheet(const struct table *table, unsigned prn, const uint16_t *issues, size_t n,
                               const uint8_t *bytes, size_t length, size_t *beside)
{
    unsigned refusal = judge_question(table, prn, issues, n, ANY_SLOT);
    *beside = 0;
    return refusal != 0 ? refusal : ref_check_sheet(ref_table_ledger(table, prn), issues, n, bytes, length, beside);
}

/* ---- the tally ---- */

void ref_tally(struct tally *tally, unsigned refusal)
{
    if (refusal >= 1 && refusal <= LAST_REFUSAL && tally->given[refusal] < UINT32_MAX)
        tally->given[refusal]++;
}

/* ---- bytes ---- */

bool table_from_bytes(struct table *table, const uint8_t *bytes, size_t n)
{
    for (unsigned place = 0; place < TEN; place++)
        table->of[place].open = false;
    if (n != TABLE_FORM_BYTES)
        return false;
    for (unsigned room = 0; room < ROOMS; room++) {
        const uint8_t *at = bytes + room * LEDGER_FORM_BYTES;
        unsigned place = ref_place_among_ten(at[L_PRN]);
        if (at[L_PRN] == 0)
            continue;
        if (place == TEN || table->of[place].open)
            return false;
        table->of[place].open = true;
        table->of[place].room = room;
        ledger_from_bytes(at, &table->of[place].ledger);
    }
    return true;
}

static void put(uint8_t *at, int size, uint32_t value)
{
    for (int i = size - 1; i >= 0; i--, value /= 256)
        at[i] = (uint8_t)value;
}

/* Where a number stands in 0, -1, 1, -2, 2 .. */
static uint32_t zigzag(int32_t value) { return (uint32_t)(value >= 0 ? 2 * value : -2 * value - 1); }

static void clock_to_bytes(const struct held_clock *clock, uint8_t *at)
{
    at[C_HELD] = 1;
    at[C_BY_PLACE] = clock->by_place;
    put(at + C_EPOCH, 4, clock->epoch);
    at[C_SSR] = clock->iod_ssr;
    at[C_CORR] = clock->iod_corr;
    put(at + C_C0, 2, zigzag(clock->c0));
}

static void orbit_to_bytes(const struct held_orbit *orbit, uint8_t *at)
{
    const struct orbit_record *r = &orbit->record;
    at[O_HELD] = 1;
    put(at + O_EPOCH, 4, orbit->epoch);
    at[O_SSR] = orbit->iod_ssr;
    put(at + O_IODN, 2, r->iodn);
    at[O_CORR] = r->iod_corr;
    put(at + O_RADIAL, 2, zigzag(r->radial));
    put(at + O_ALONG, 2, zigzag(r->along));
    put(at + O_CROSS, 2, zigzag(r->cross));
    at[O_URA] = r->ura.kind == URA_QUARTERS ? 1 : r->ura.kind == URA_ABOVE ? 2 : 0;
    put(at + O_QUARTERS, 4, r->ura.kind == URA_QUARTERS ? r->ura.quarters : 0);
}

/* Whatever is not held, and what is spare, is zero. All that is held is written: */
_Static_assert(L_CLOCKS + SLOTS * L_CLOCK_BYTES == L_ORBITS, "the orbits stand behind the clocks");
_Static_assert(L_ORBITS + SLOTS * L_ORBIT_BYTES == L_CODES, "the codes stand behind the orbits");
_Static_assert(L_CODES + SLOTS * L_CODE_BYTES == LEDGER_FORM_BYTES, "nothing stands behind the codes");

void ledger_to_bytes(const struct ledger *ledger, uint8_t bytes[LEDGER_FORM_BYTES])
{
    memset(bytes, 0, LEDGER_FORM_BYTES);
    bytes[L_PRN] = ledger->prn;
    if (ledger->has_mask) {
        bytes[L_HAS_MASK] = 1;
        bytes[L_SSR] = ledger->mask.iod_ssr;
        bytes[L_IODP] = ledger->mask.iodp;
    }
    for (int slot = 1; slot <= SLOTS; slot++) {
        if (ledger->has_mask && ledger->mask.set[slot])
            bytes[L_MASK + (slot - 1) / 8] |= (uint8_t)(128 >> (slot - 1) % 8);
        if (ledger->clock[slot].held)
            clock_to_bytes(&ledger->clock[slot], bytes + L_CLOCKS + L_CLOCK_BYTES * (slot - 1));
        if (ledger->orbit[slot].held)
            orbit_to_bytes(&ledger->orbit[slot], bytes + L_ORBITS + L_ORBIT_BYTES * (slot - 1));
        if (ledger->code[slot].held) {
            bytes[L_CODES + L_CODE_BYTES * (slot - 1) + K_HELD] = 1;
            bytes[L_CODES + L_CODE_BYTES * (slot - 1) + K_CODE] = ledger->code[slot].code;
        }
    }
}

void room_to_bytes(const struct table *table, unsigned room, uint8_t bytes[LEDGER_FORM_BYTES])
{
    memset(bytes, 0, LEDGER_FORM_BYTES);
    for (unsigned place = 0; place < TEN; place++)
        if (table->of[place].open && table->of[place].room == room)
            ledger_to_bytes(&table->of[place].ledger, bytes);
}

void tally_from_bytes(struct tally *tally, const uint8_t bytes[TALLY_FORM_BYTES])
{
    for (unsigned n = 0; n <= LAST_REFUSAL; n++)
        tally->given[n] = ref_get_bits(bytes, 32 * n, 32);
}

void tally_to_bytes(const struct tally *tally, uint8_t bytes[TALLY_FORM_BYTES])
{
    for (unsigned n = 0; n <= LAST_REFUSAL; n++)
        put(bytes + 4 * n, 4, tally->given[n]);
}
