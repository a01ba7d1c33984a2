/* The part of the comparison that is about correction sheets: written from ledgers
 * that took frames and from ledgers of any bytes, read whole and damaged, and
 * checked against the ledger that they are of, and against others. */
#include "compare.h"
#include "forms.h"
#include "sheet.h"

#include <stdio.h>
#include <stdlib.h>
#include <string.h>

static uint8_t *sheet_end, *header_end;

/* Of lists that could have been written, by their rows; of sheets that were read;
 * of refusals by qvd_read_sheet, by their offset; of sheets that were accepted, by
 * how many rows they left out: none, one, more, all of several. */
static unsigned long lists_of[ASSIGNED_SLOTS + 1], sheets_read_of[ASSIGNED_SLOTS + 1];
static unsigned long refused_at[SHEET_BYTES + 1], left_out[4];
static unsigned long own_accepted, rooms_exact, number_changed[ROW_NUMBERS];

/* Sizes at which something changes, and others. */
static size_t some_size(void)
{
    static const uint8_t sizes[] = { 0, 1, 2, 62, 63, 64, 65, 66, 173, 174 };
    return chance(60) ? PICK(sizes) : chance(50) ? below(8) : below(ASSIGNED_SLOTS + 1);
}

/* ---- the three calls ---- */

static void same_answer(enum call call, uint32_t library, unsigned reference, size_t beside)
{
    same_number("answer and what it gives beside its number", library, beside_to_number(reference, beside));
    tally[call][reference]++;
}

/* A ledger's length that is wrong more often than in other calls. */
static size_t some_length_of_ledger(void)
{
    size_t n = QVD_LEDGER_BYTES;
    for (int i = 0; i < 5 && n == QVD_LEDGER_BYTES; i++)
        n = some_ledger_length();
    return n;
}

static void compare_writing(const uint16_t *issues, size_t k, size_t m)
{
    size_t n = some_length_of_ledger(), written = 0;
    uint8_t *room = lend(m);
    uint32_t library;
    unsigned reference = 39;

    now.call = WRITE_SHEET;
    now.input = NULL;
    now.ledger = ledger;
    library = qvd_write_sheet(ledger, n, issues, k, room, m);
    if (n == QVD_LEDGER_BYTES)
        reference = ref_write_sheet(&reference_ledger, issues, k, lent.should + MARGIN, m, &written);
    same_answer(WRITE_SHEET, library, reference, written);
    lent_is_right("room");
    rooms_exact += reference == 0 && written == m;
}

static void compare_reading(const uint8_t *bytes, size_t m)
{
    static struct sheet read;
    size_t h = chance(1) ? QVD_SHEET_HEADER_BYTES - 1 + below(4) : QVD_SHEET_HEADER_BYTES, at = 0;
    size_t r = chance(1) ? QVD_ROWS_BYTES - QVD_ROW_BYTES + below(2 * QVD_ROW_BYTES) : QVD_ROWS_BYTES;
    uint8_t *input = sheet_end - m, *header = header_end - h, *rows = lend(r), header_should[MARGIN + 64];
    uint32_t library;
    unsigned reference = 39;

    memcpy(input, bytes, m);
    any_bytes(header_should, MARGIN + h);
    memcpy(header - MARGIN, header_should, MARGIN + h);
    now.call = READ_SHEET;
    now.input = input;
    now.input_bytes = m;
    now.ledger = NULL;
    library = qvd_read_sheet(input, m, header, h, rows, r);
    if (h == QVD_SHEET_HEADER_BYTES && r == QVD_ROWS_BYTES)
        reference = ref_read_sheet(bytes, m, MOST_SHEET_ROWS, true, &read, &at);
    if (reference == 0) {
        sheet_header_to_bytes(&read, header_should + MARGIN);
        memset(lent.should + MARGIN, 0, r);
        for (size_t i = 0; i < read.count; i++)
            row_to_bytes(&read.row[i], lent.should + MARGIN + i * QVD_ROW_BYTES);
        sheets_read_of[read.count]++;
    } else if (reference == 23) {
        refused_at[at]++;
    }
    same_answer(READ_SHEET, library, reference, at);
    lent_is_right("rows");
    same_bytes("header", header - MARGIN, header_should, MARGIN + h);
    same_bytes("the sheet afterwards", input, bytes, m);
}

static unsigned compare_check(const uint16_t *issues, size_t k, const uint8_t *bytes, size_t m)
{
    size_t n = some_length_of_ledger(), beside = 0;
    uint8_t *input = sheet_end - m;
    uint32_t library;
    unsigned reference = 39;

    memcpy(input, bytes, m);
    now.call = CHECK_SHEET;
    now.input = input;
    now.input_bytes = m;
    now.ledger = ledger;
    library = qvd_check_sheet(ledger, n, issues, k, input, m);
    if (n == QVD_LEDGER_BYTES)
        reference = ref_check_sheet(&reference_ledger, issues, k, bytes, m, &beside);
    same_answer(CHECK_SHEET, library, reference, beside);
    same_bytes("the sheet afterwards", input, bytes, m);
    return reference;
}

/* ---- sheets that are good ---- */

static int32_t some_number(const struct sheet_number *number)
{
    unsigned steps = (unsigned)((number->most - number->least) / number->step);
    switch (below(10)) {
    case 0: return number->least;
    case 1: return number->most;
    default: return number->least + number->step * (int32_t)below(steps + 1);
    }
}

/* So many slots of satellites, in rising order. */
static void some_slots(uint8_t *slots, size_t count)
{
    for (unsigned slot = 1; slot <= ASSIGNED_SLOTS; slot++)
        if (below(ASSIGNED_SLOTS + 1 - slot) < count) {
            *slots++ = (uint8_t)slot;
            count--;
        }
}

static void some_row(struct row *row, unsigned slot)
{
    row->slot = (uint8_t)slot;
    row->iodn = (uint16_t)some_number(&sheet_row[1]);
    row->iod_corr = (uint8_t)some_number(&sheet_row[2]);
    row->radial = some_number(&sheet_row[3]);
    row->along = some_number(&sheet_row[4]);
    row->cross = some_number(&sheet_row[5]);
    row->clock = some_number(&sheet_row[6]);
    row->ura = ref_ura((unsigned)some_number(&sheet_row[7]));
}

static void some_sheet(struct sheet *sheet, size_t count)
{
    uint8_t slots[ASSIGNED_SLOTS];
    some_slots(slots, count);
    sheet->prn = PICK(ten);
    sheet->iod_ssr = (uint8_t)below(4);
    sheet->iodp = (uint8_t)below(16);
    sheet->count = count;
    for (size_t i = 0; i < count; i++)
        some_row(&sheet->row[i], slots[i]);
}

/* ---- sheets that are damaged ---- */

enum { MOST_SHEET = SHEET_BYTES + 2 * SHEET_ROW_BYTES + 64 };

static void put_bytes(uint8_t *at, int bytes, uint32_t value)
{
    for (int i = 0; i < bytes; i++)
        at[i] = (uint8_t)(value >> 8 * (bytes - 1 - i));
}

/* Puts a number that a field may not have, just beyond its ends mostly, or one that
 * is no multiple of its step; now and then one that it may have. */
static void spoil_number(uint8_t *at, const struct sheet_number *number)
{
    int64_t value;
    unsigned bit = below(8 * (unsigned)number->bytes - 1);
    switch (below(9)) {
    case 0: value = number->least; break;
    case 1: value = number->most; break;
    case 2: value = (int64_t)number->least - 1; break;
    case 3: value = (int64_t)number->most + 1; break;
    case 4: value = (int64_t)number->least - number->step; break; /* the unusable one */
    case 5: value = (int64_t)number->most + number->step; break;
    case 6: value = some_number(number) + number->step / 2; break;
    case 7: value = some_number(number) ^ 1 << bit; break;
    default: value = any32(); break;
    }
    put_bytes(at, number->bytes, (uint32_t)value);
}

/* The offset of number j in a field. */
static size_t number_at(const struct sheet_number *numbers, int j)
{
    size_t at = 3;
    for (int i = 0; i < j; i++)
        at += (size_t)numbers[i].bytes;
    return at;
}

static void spoil_head(uint8_t *bytes, size_t count)
{
    static const uint8_t prns[] = { 0, 1, 5, 6, 58, 59, 63, 64, 255 };
    static const uint8_t ssrs[] = { 3, 4, 4, 5, 255 }, iodps[] = { 15, 16, 16, 17, 255 };
    const uint16_t counts[] = { (uint16_t)(count + 1), (uint16_t)(count - 1), 64, 65, 174, 175, 256, 65535,
                                MOST_SHEET_ROWS, MOST_SHEET_ROWS + 1 };
    switch (below(5)) {
    case 0: bytes[3] = chance(80) ? PICK(prns) : (uint8_t)any32(); break;
    case 1: bytes[4] = PICK(ssrs); break;
    case 2: bytes[5] = PICK(iodps); break;
    default: put_bytes(bytes + 6, 2, PICK(counts)); break;
    }
}

/* The tag or the length of a field becomes another. */
static void spoil_tag(uint8_t *field)
{
    static const uint8_t tags[] = { 0, 1, 2, 3, 0xFE, 0xFF };
    static const uint16_t lengths[] = { 0, 4, 5, 6, 20, 21, 22, 24, 5 << 8, 21 << 8, 256 + 21, 65535 };
    if (chance(50))
        field[0] = PICK(tags);
    else
        put_bytes(field + 1, 2, PICK(lengths));
}

/* Moves rows: two change places, one stands twice, one is gone, one more is there.
 * The number of bytes is answered. */
static size_t move_rows(uint8_t *bytes, size_t n, size_t count)
{
    unsigned way = below(4);
    size_t i = below((unsigned)count), j = chance(60) ? i + 1 : below((unsigned)count);
    uint8_t *one = bytes + ref_sheet_row_at(i), *other = bytes + ref_sheet_row_at(j < count ? j : i), row[SHEET_ROW_BYTES];

    memcpy(row, one, sizeof row);
    if (way == 0) {
        memcpy(one, other, sizeof row);
        memcpy(other, row, sizeof row);
    } else if (way == 1) {
        memcpy(other, row, sizeof row);
    } else if (way == 2) {
        memmove(one, one + sizeof row, n - ref_sheet_row_at(i + 1));
        n -= sizeof row;
    } else {
        memmove(one + sizeof row, one, n - ref_sheet_row_at(i));
        n += sizeof row;
    }
    return n;
}

/* One damage to a sheet of so many rows; the number of bytes is answered. */
static size_t damage(uint8_t *bytes, size_t n, size_t count)
{
    size_t field = chance(45) ? 0 : ref_sheet_row_at(chance(20) ? count : below((unsigned)count + 1));
    size_t row = count == 0 ? 0 : ref_sheet_row_at(chance(20) ? count - 1 : below((unsigned)count));
    int j = (int)below(ROW_NUMBERS);

    if (n < ref_sheet_row_at(count) + SHEET_END_BYTES)
        return n; /* it was cut before */
    switch (below(15)) {
    case 0:
    case 14: spoil_head(bytes, count); break;
    case 1: spoil_tag(bytes + field); break;
    case 2: n = below((unsigned)n); break;
    case 3: n = chance(55) ? field : field + below(field == 0 ? SHEET_HEAD_BYTES : SHEET_ROW_BYTES); break;
    case 4: n += 1 + below(chance(50) ? 4 : 60); break;
    case 5: put_bytes(bytes + field, 3, 0xFF0000); break; /* the end, wherever */
    case 6: bytes[below((unsigned)n)] = (uint8_t)any32(); break;
    default:
        if (count == 0)
            break;
        if (chance(25))
            return move_rows(bytes, n, count);
        spoil_number(bytes + row + number_at(sheet_row, j), &sheet_row[j]);
        break;
    }
    return n > MOST_SHEET ? MOST_SHEET : n;
}

/* Every byte of a sheet damaged in turn; the sheet cut at every length. */
static void compare_each_byte(const struct sheet *sheet)
{
    uint8_t bytes[SHEET_BYTES];
    size_t n = ref_sheet_bytes(sheet, bytes);

    for (size_t at = 0; at < n; at++) {
        uint8_t was = bytes[at], bit = (uint8_t)(1 << below(8));
        bytes[at] = (uint8_t)(chance(50) ? was ^ bit : chance(60) ? was + 1 - 2 * below(2) : any32());
        compare_reading(bytes, n);
        bytes[at] = was;
    }
    for (size_t cut = 0; cut <= n; cut++)
        compare_reading(bytes, cut);
}

/* A sheet of so many rows: whole; with each byte of its end damaged; cut where its
 * last row ends, and in its end; with bytes behind it. */
static void compare_ends(const struct sheet *sheet, int times)
{
    uint8_t bytes[MOST_SHEET];
    size_t n;

    any_bytes(bytes, sizeof bytes);
    n = ref_sheet_bytes(sheet, bytes);
    compare_reading(bytes, n);
    for (int i = 0; i < times; i++) {
        uint8_t *at = bytes + n - 1 - below(SHEET_END_BYTES), was = *at;
        *at ^= (uint8_t)between(1, 255);
        compare_reading(bytes, n);
        *at = was;
        compare_reading(bytes, n - 1 - below(SHEET_END_BYTES));
        compare_reading(bytes, n + 1 + below(20));
    }
}

static void compare_damaged(unsigned long count)
{
    static struct sheet sheet;
    uint8_t bytes[MOST_SHEET];

    begin("sheet");
    now.issues = NULL;
    for (size_t rows = 0; rows <= ASSIGNED_SLOTS; rows++) {
        now.number = rows;
        some_sheet(&sheet, rows);
        compare_ends(&sheet, 24);
    }
    for (size_t i = 0; i < 10; i++) {
        static const uint8_t sizes[] = { 0, 1, 2, 3, 10, 63, 64, 65, 173, 174 };
        now.number = 1000 + i;
        some_sheet(&sheet, sizes[i]);
        compare_each_byte(&sheet);
    }
    for (unsigned long i = 0; i < count; i++) {
        size_t rows = some_size(), n;
        now.number = 2000 + i;
        some_sheet(&sheet, rows);
        any_bytes(bytes, sizeof bytes);
        n = ref_sheet_bytes(&sheet, bytes);
        do
            n = damage(bytes, n, rows);
        while (chance(25));
        compare_reading(bytes, n);
        if (chance(5)) {
            any_bytes(bytes, sizeof bytes);
            put_bytes(bytes, 3, 0x010005);
            compare_reading(bytes, below(sizeof bytes));
        }
    }
}

/* ---- ledgers that took frames ---- */

/* The frame of contents, taken by both. */
static void take(const struct contents *c, unsigned prn)
{
    uint8_t message[MESSAGE_BYTES], frame[FRAME_BYTES];
    if (ref_write(c, message, MESSAGE_BYTES) != 0) {
        printf("compare: a message of a sheet's ledger cannot be written\n");
        exit(2);
    }
    ref_encode(message, prn, 0, frame);
    same_number("verdict on a frame", qvd_take(ledger, QVD_LEDGER_BYTES, frame, FRAME_BYTES),
                ref_take(&reference_ledger, frame, FRAME_BYTES));
}

static void some_orbit(struct orbit_record *o, unsigned slot, unsigned iodn, unsigned corr)
{
    struct row row;
    some_row(&row, slot);
    *o = (struct orbit_record){ (uint16_t)slot, (uint16_t)iodn, (uint8_t)corr, (int16_t)(row.radial / 16),
                                (int16_t)(row.along / 64), (int16_t)(row.cross / 64), row.ura };
}

static int16_t some_c0(void) { return (int16_t)(some_number(&sheet_row[6]) / 16); }

/* What the frames of one ledger say of each slot; those that are to have rows are
 * listed, the others of the mask have a clock that does not fit their orbit. */
struct filled {
    unsigned prn;
    struct mask mask;
    uint8_t corr[SLOTS + 1];
    bool listed[SLOTS + 1];
    uint16_t issues[SLOTS];
};

static void take_orbits(const struct filled *f)
{
    struct contents c = { .kind = 2, .orbits = { .epoch = 100, .iod_ssr = f->mask.iod_ssr } };
    unsigned n = 0;
    for (unsigned slot = 1; slot <= SLOTS; slot++) {
        if (f->mask.set[slot])
            some_orbit(&c.orbits.record[n++], slot, f->issues[slot - 1] == NO_ISSUE ? 7 : f->issues[slot - 1], f->corr[slot]);
        if (n == ORBITS || (n > 0 && slot == SLOTS)) {
            take(&c, f->prn);
            n = 0;
            memset(c.orbits.record, 0, sizeof c.orbits.record);
        }
    }
}

static void take_clocks(const struct filled *f)
{
    struct contents c = { .kind = 4, .clocks = { .epoch = 100, .iod_ssr = f->mask.iod_ssr, .iodp = f->mask.iodp } };
    unsigned n = 0;
    for (unsigned slot = 1; slot <= SLOTS; slot++) {
        unsigned corr = f->listed[slot] ? f->corr[slot] : (f->corr[slot] + 1u) % 8;
        if (f->mask.set[slot])
            c.clocks.record[n++] = (struct clock_record){ 0, (uint8_t)corr, some_c0() };
        if (n == CLOCKS || (n > 0 && slot == SLOTS)) {
            take(&c, f->prn);
            n = 0;
            memset(c.clocks.record, 0, sizeof c.clocks.record);
            c.clocks.first++;
        }
    }
}

/* Codes for some or all places; those of listed slots are known. */
static void take_codes(const struct filled *f, unsigned percent)
{
    struct contents c = { .kind = 5, .codes = { .epoch = 100, .iod_ssr = f->mask.iod_ssr, .iodp = f->mask.iodp } };
    unsigned n = 0;
    for (unsigned slot = 1; slot <= SLOTS; slot++) {
        if (f->mask.set[slot])
            c.codes.code[n++] = (uint8_t)(f->listed[slot] ? between(1, 63) : below(64));
        if (n == CODES || (n > 0 && slot == SLOTS)) {
            if (chance(percent))
                take(&c, f->prn);
            n = 0;
            memset(c.codes.code, 0, sizeof c.codes.code);
            c.codes.sub++;
        }
    }
}

/* A ledger whose list has so many rows, or one that took no mask. */
static void fill_by_frames(struct filled *f, size_t rows, bool has_mask)
{
    struct contents c = { .kind = 1 };
    uint8_t slots[ASSIGNED_SLOTS];
    unsigned others = chance(40) ? 0 : below(40);
    size_t count = 0;

    memset(f, 0, sizeof *f);
    f->prn = PICK(ten);
    f->mask.iod_ssr = (uint8_t)below(4);
    f->mask.iodp = (uint8_t)below(16);
    some_slots(slots, rows);
    for (size_t i = 0; i < rows; i++)
        f->mask.set[slots[i]] = f->listed[slots[i]] = true;
    while (others-- > 0)
        f->mask.set[between(1, SLOTS)] = true;
    for (unsigned slot = 1; slot <= SLOTS; slot++) {
        f->corr[slot] = (uint8_t)below(8);
        f->issues[slot - 1] = (uint16_t)(f->listed[slot] || chance(50) ? (unsigned)some_number(&sheet_row[1]) : NO_ISSUE);
    }
    place_ledger();
    same_number("opening", qvd_open(ledger, QVD_LEDGER_BYTES, (uint8_t)f->prn), ref_open(&reference_ledger, f->prn));
    c.mask = f->mask;
    c.mask.epoch = 100;
    if (has_mask)
        take(&c, f->prn);
    take_orbits(f);
    if (!has_mask)
        return;
    take_clocks(f);
    if (chance(60))
        take_codes(f, chance(50) ? 100 : 60);
    ref_count(&reference_ledger, f->issues, SLOTS, &count);
    same_number("rows of a ledger that was filled", (unsigned)count, (unsigned)rows);
}

/* Takes one more frame, which changes rows or the mask, or nothing. */
static void take_another(const struct filled *f)
{
    struct contents c = { 0 };
    unsigned slot = between(1, SLOTS);

    while (!f->mask.set[slot] && chance(98))
        slot = slot % SLOTS + 1;
    switch (below(6)) {
    case 5: /* codes, of which one in four makes a slot unknown */
        c.kind = 5;
        c.codes = (struct code_part){ .epoch = 50, .iod_ssr = f->mask.iod_ssr, .iodp = f->mask.iodp };
        for (unsigned i = 0; i < CODES; i++)
            c.codes.code[i] = (uint8_t)(chance(25) ? 0 : between(1, 63));
        break;
    case 0: /* new clocks by slot */
        c.kind = 7;
        c.clocks = (struct clock_part){ .epoch = 200, .iod_ssr = f->mask.iod_ssr, .count = 1 };
        c.clocks.record[0] = (struct clock_record){ (uint16_t)slot, f->corr[slot], some_c0() };
        break;
    case 1: /* a new orbit, of the same issue or of another */
        c.kind = 2;
        c.orbits = (struct orbit_part){ .epoch = 200, .iod_ssr = f->mask.iod_ssr };
        some_orbit(&c.orbits.record[0], slot, f->issues[slot - 1] % 1024 ^ chance(30), f->corr[slot]);
        break;
    case 2: /* another mask, in one of its two numbers */
        c.kind = 1;
        c.mask = f->mask;
        if (chance(50))
            c.mask.iodp ^= 1;
        else
            c.mask.iod_ssr ^= 1;
        break;
    case 3: /* the same mask again */
        c.kind = 1;
        c.mask = f->mask;
        c.mask.epoch = 200;
        break;
    default: c.kind = 63; break;
    }
    take(&c, f->prn);
}

/* ---- ledgers of any bytes ---- */

static uint32_t zigzag(int32_t value) { return (uint32_t)(value >= 0 ? 2 * value : -2 * value - 1); }

/* The clock and the orbit of a slot, which then qualifies. With `liberal` they may
 * be such as no frame brings: IOD Corr above 7, raw values of 16 bits, quarters
 * that no code gives, IODN 65535 where no issue is given. */
static void put_held(unsigned slot, uint16_t *issue, bool liberal)
{
    uint8_t *clock = ledger + L_CLOCKS + L_CLOCK_BYTES * (slot - 1), *orbit = ledger + L_ORBITS + L_ORBIT_BYTES * (slot - 1);
    unsigned corr = liberal && chance(5) ? between(8, 255) : below(8);
    struct orbit_record o;
    int32_t c0 = some_c0();

    *issue = (uint16_t)(liberal && chance(2) ? NO_ISSUE : some_number(&sheet_row[1]));
    some_orbit(&o, slot, *issue, corr);
    if (liberal && chance(5))
        o.radial = (int16_t)(chance(50) ? 16384 : (int)below(65536) - 32768);
    if (liberal && chance(5))
        o.cross = (int16_t)(chance(50) ? 4096 : (int)below(65536) - 32768);
    if (liberal && chance(5))
        c0 = chance(50) ? -16385 : (int)below(65536) - 32768;
    if (liberal && chance(10))
        o.ura = (struct ura){ URA_QUARTERS, chance(50) ? below(30) : any32() };
    clock[C_HELD] = 1;
    clock[C_SSR] = ledger[L_SSR];
    clock[C_CORR] = (uint8_t)corr;
    put_bytes(clock + C_C0, 2, zigzag(c0));
    orbit[O_HELD] = 1;
    orbit[O_SSR] = ledger[L_SSR];
    put_bytes(orbit + O_IODN, 2, o.iodn);
    orbit[O_CORR] = (uint8_t)corr;
    put_bytes(orbit + O_RADIAL, 2, zigzag(o.radial));
    put_bytes(orbit + O_ALONG, 2, zigzag(o.along));
    put_bytes(orbit + O_CROSS, 2, zigzag(o.cross));
    orbit[O_URA] = o.ura.kind == URA_QUARTERS ? 1 : 2;
    put_bytes(orbit + O_QUARTERS, 4, o.ura.kind == URA_QUARTERS ? o.ura.quarters : any32());
}

/* A code in the place of the orbit's, for some slots; one that keeps a row out where
 * `known` is not said. */
static void put_code(unsigned slot, bool known)
{
    uint8_t *code = ledger + L_CODES + L_CODE_BYTES * (slot - 1);
    code[K_HELD] = (uint8_t)(chance(40) ? 1 : chance(50) ? 0 : between(2, 255));
    code[K_CODE] = (uint8_t)(code[K_HELD] != 1 ? any32() : known ? between(1, 63) : below(64));
}

/* Bytes, by docs/FORM.md, whose list has so many rows; with `liberal` so many or
 * less, and PRN, IOD SSR and IODP may be anything. */
static void fill_by_bytes(struct filled *f, size_t rows, bool has_mask, bool liberal)
{
    uint8_t slots[ASSIGNED_SLOTS];
    size_t count = 0;

    memset(f, 0, sizeof *f);
    place_ledger();
    if (chance(50))
        memset(ledger, 0, QVD_LEDGER_BYTES);
    f->prn = ledger[L_PRN] = liberal && chance(20) ? (uint8_t)any32() : PICK(ten);
    ledger[L_HAS_MASK] = (uint8_t)(has_mask ? 1 : chance(50) ? 0 : between(2, 255));
    ledger[L_SSR] = (uint8_t)(liberal && chance(20) ? between(4, 255) : below(4));
    ledger[L_IODP] = (uint8_t)(liberal && chance(20) ? between(16, 255) : below(16));
    memset(ledger + L_MASK, 0, L_CLOCKS - L_MASK);
    some_slots(slots, rows);
    for (unsigned slot = 1; slot <= SLOTS; slot++) {
        f->issues[slot - 1] = (uint16_t)(chance(50) ? NO_ISSUE : below(1024));
        put_code(slot, false);
    }
    for (size_t i = 0; i < rows; i++) {
        put_held(slots[i], &f->issues[slots[i] - 1], liberal);
        put_code(slots[i], !liberal || chance(95));
        f->mask.set[slots[i]] = true;
        ledger[L_MASK + (slots[i] - 1) / 8] |= (uint8_t)(128 >> (slots[i] - 1) % 8);
    }
    if (liberal)
        for (unsigned slot = ASSIGNED_SLOTS + 1; slot <= SLOTS + 1; slot++) /* reserved slots, and the last bit */
            if (chance(30))
                ledger[L_MASK + (slot - 1) / 8] |= (uint8_t)(128 >> (slot - 1) % 8);
    ledger_from_bytes(ledger, &reference_ledger);
    ref_count(&reference_ledger, f->issues, SLOTS, &count);
    if (has_mask && !liberal)
        same_number("rows of bytes that were filled", (unsigned)count, (unsigned)rows);
}

/* ---- sheets of a ledger, and what partners make of them ---- */

static bool readable(const struct row *row)
{
    return row->iodn <= LAST_ISSUE && row->iod_corr <= 7 && abs(row->radial) <= 16383 * 16 && abs(row->along) <= 4095 * 64 &&
           abs(row->cross) <= 4095 * 64 && abs(row->clock) <= 16383 * 16 && ref_ura_code(row->ura) >= 1;
}

static void take_out(struct sheet *sheet, size_t i)
{
    memmove(&sheet->row[i], &sheet->row[i + 1], (sheet->count - i - 1) * sizeof sheet->row[0]);
    sheet->count--;
}

static void put_in(struct sheet *sheet, size_t i, const struct row *row)
{
    struct row copy = *row;
    if (sheet->count == ASSIGNED_SLOTS)
        return;
    memmove(&sheet->row[i + 1], &sheet->row[i], (sheet->count - i) * sizeof sheet->row[0]);
    sheet->row[i] = copy;
    sheet->count++;
}

static int32_t stepped(int32_t value, const struct sheet_number *number)
{
    return value + (value >= number->most ? -number->step : number->step);
}

/* One of a row's numbers becomes another that it may have. */
static void change_number(struct row *row)
{
    int which = (int)between(1, ROW_NUMBERS - 1), code = ref_ura_code(row->ura);
    number_changed[which]++;
    switch (which) {
    case 1: row->iodn ^= (uint16_t)(1 << below(10)); break;
    case 2: row->iod_corr ^= (uint8_t)(1 << below(3)); break;
    case 3: row->radial = stepped(row->radial, &sheet_row[3]); break;
    case 4: row->along = stepped(row->along, &sheet_row[4]); break;
    case 5: row->cross = stepped(row->cross, &sheet_row[5]); break;
    case 6: row->clock = stepped(row->clock, &sheet_row[6]); break;
    default: row->ura = ref_ura((unsigned)(code >= 63 || code < 1 ? 62 : code + 1)); break;
    }
}

/* One change to a sheet: rows left out, exchanged, repeated, with another number,
 * of a slot that is not listed; another header. */
static void change_sheet(struct sheet *sheet)
{
    size_t i = below((unsigned)sheet->count + 1), j = below((unsigned)sheet->count + 1);
    struct row row;

    if (chance(8)) {
        switch (below(3)) {
        case 0: sheet->prn = PICK(ten); break;
        case 1: sheet->iod_ssr ^= (uint8_t)between(1, 3); break;
        default: sheet->iodp ^= (uint8_t)between(1, 15); break;
        }
        return;
    }
    if (i == sheet->count || j == sheet->count) {
        some_row(&row, between(1, ASSIGNED_SLOTS));
        put_in(sheet, i, &row);
        return;
    }
    switch (below(6)) {
    case 0: take_out(sheet, i); break;
    case 1:
        row = sheet->row[i];
        sheet->row[i] = sheet->row[j];
        sheet->row[j] = row;
        break;
    case 2: put_in(sheet, j, &sheet->row[i]); break;
    case 3:
        put_in(sheet, j, &sheet->row[i]);
        change_number(&sheet->row[j]);
        break;
    case 4: sheet->row[i].slot = (uint8_t)between(1, ASSIGNED_SLOTS); break;
    default: change_number(&sheet->row[i]); break;
    }
}

/* What a partner may send who has the same list: all of it, or less, in any order. */
static void partners_sheet(struct sheet *theirs, const struct sheet *ours)
{
    unsigned leaves_out = chance(50) ? 0 : below(100);
    bool mixed = chance(50), drops = chance(90);

    *theirs = *ours;
    for (size_t i = theirs->count; i-- > 0;)
        if ((drops && !readable(&theirs->row[i])) || chance(leaves_out))
            take_out(theirs, i);
    for (size_t i = theirs->count; mixed && i > 1; i--) {
        size_t j = below((unsigned)i);
        struct row row = theirs->row[i - 1];
        theirs->row[i - 1] = theirs->row[j];
        theirs->row[j] = row;
    }
    if (drops && theirs->iod_ssr > 3)
        theirs->iod_ssr = 3;
    if (drops && theirs->iodp > 15)
        theirs->iodp = 15;
}

/* Issues as they are or, now and then, with one that is none or of a wrong number;
 * put where the library gets them, and how many there are is answered. */
static size_t lay_issues(const struct filled *f)
{
    size_t k = chance(94) ? SLOTS : chance(70) ? SLOTS - 1 + 2 * below(2) : below(SLOTS + 8);
    uint16_t *issues = (uint16_t *)(void *)(issues_end - 2 * k);

    for (size_t i = 0; i < k; i++)
        issues[i] = i < SLOTS ? f->issues[i] : NO_ISSUE;
    if (k > 0 && chance(6)) {
        size_t at = chance(30) ? k - 1 : below((unsigned)k);
        issues[at] = (uint16_t)(chance(40) ? 1024 : chance(40) ? 65534 : between(1024, 65534));
    }
    now.issues = issues;
    now.issue_count = k;
    return k;
}

/* Room for a sheet of so many bytes: exact, one byte more or less, any. */
static size_t some_room(size_t exact)
{
    switch (below(8)) {
    case 0:
    case 1: return exact;
    case 2:
    case 3: return exact - 1;
    case 4: return exact + 1;
    case 5: return below((unsigned)exact);
    case 6: return exact + below(64);
    default: return below(QVD_ROWS_BYTES);
    }
}

static void count_left_out(size_t ours, size_t theirs)
{
    left_out[ours == theirs ? 0 : theirs == 0 && ours > 1 ? 3 : ours - theirs == 1 ? 1 : 2]++;
}

/* Checks of a sheet that is the list's, or less, and of sheets changed from it. */
static void compare_checks(const struct filled *f, int times)
{
    static struct sheet ours, theirs;
    uint8_t bytes[MOST_SHEET];
    bool listed = ref_list_sheet(&reference_ledger, f->issues, SLOTS, &ours) == 0;

    if (!listed)
        some_sheet(&ours, below(4));
    for (int i = 0; i < times; i++) {
        unsigned changes = chance(30) ? 0 : 1 + below(3);
        size_t k = lay_issues(f), n;

        partners_sheet(&theirs, &ours);
        while (changes-- > 0)
            change_sheet(&theirs);
        any_bytes(bytes, sizeof bytes);
        n = ref_sheet_bytes(&theirs, bytes);
        if (chance(12))
            n = damage(bytes, n, theirs.count);
        if (compare_check(now.issues, k, bytes, n) == 0)
            count_left_out(ours.count, theirs.count);
    }
}

/* The library's own sheet: it is read, and accepted with no row left out. */
static void compare_own(const struct filled *f)
{
    static uint8_t sheet[QVD_SHEET_BYTES];
    uint32_t answer = qvd_write_sheet(ledger, QVD_LEDGER_BYTES, f->issues, SLOTS, sheet, sizeof sheet);

    if (answer < 256)
        return;
    compare_reading(sheet, answer / 256);
    same_number("our own sheet, against its ledger",
                qvd_check_sheet(ledger, QVD_LEDGER_BYTES, f->issues, SLOTS, sheet, answer / 256), 0);
    own_accepted++;
}

static void compare_ledger(const struct filled *f, bool own)
{
    static struct sheet ours;
    unsigned listed = ref_list_sheet(&reference_ledger, f->issues, SLOTS, &ours);
    size_t exact = ref_sheet_row_at(listed == 0 ? ours.count : 0) + SHEET_END_BYTES;

    if (listed == 0)
        lists_of[ours.count]++;
    remember_ledger();
    for (int i = 0; i < 16; i++) {
        size_t k = lay_issues(f);
        compare_writing(now.issues, k, some_room(exact));
    }
    compare_checks(f, 30);
    if (own)
        compare_own(f);
    ledger_is_unchanged();
    now.issues = NULL;
}

static void compare_ledgers(unsigned long count)
{
    static struct filled f;
    static struct sheet before;
    uint8_t bytes[SHEET_BYTES];

    begin("sheet of a ledger");
    for (unsigned long i = 0; i < count; i++) {
        bool has_mask = chance(92), liberal = i % 2 == 1;
        now.number = i;
        fill_by_bytes(&f, some_size(), has_mask, liberal);
        compare_ledger(&f, !liberal && has_mask);
    }
    begin("sheet of a ledger's frames");
    for (unsigned long i = 0; i < count / 3; i++) {
        bool has_mask = chance(92);
        size_t n;
        now.number = i;
        fill_by_frames(&f, some_size(), has_mask);
        compare_ledger(&f, has_mask);
        if (!has_mask)
            continue;
        ref_list_sheet(&reference_ledger, f.issues, SLOTS, &before);
        n = ref_sheet_bytes(&before, bytes);
        for (int frames = 0; frames < 4; frames++) {
            take_another(&f);
            now.issues = f.issues;
            now.issue_count = SLOTS;
            compare_check(f.issues, SLOTS, bytes, n);
        }
        compare_ledger(&f, true);
    }
}

/* ---- what the part about tables of ledgers draws from here ---- */

_Static_assert((int)MOST_SHEET <= (int)MOST_PARTNERS_SHEET, "a partner's sheet has room, damaged too");

size_t some_partners_sheet(const struct ledger *of, const uint16_t *issues, size_t k, uint8_t bytes[MOST_PARTNERS_SHEET])
{
    static struct sheet ours, theirs;
    unsigned changes = chance(30) ? 0 : 1 + below(3);
    size_t n;

    if (of == NULL || ref_list_sheet(of, issues, k, &ours) != 0)
        some_sheet(&ours, below(4));
    partners_sheet(&theirs, &ours);
    while (changes-- > 0)
        change_sheet(&theirs);
    any_bytes(bytes, MOST_PARTNERS_SHEET);
    n = ref_sheet_bytes(&theirs, bytes);
    return chance(12) ? damage(bytes, n, theirs.count) : n;
}

size_t some_sheet_room(const struct ledger *of, const uint16_t *issues, size_t k)
{
    static struct sheet ours;
    bool listed = of != NULL && ref_list_sheet(of, issues, k, &ours) == 0;
    return some_room(ref_sheet_row_at(listed ? ours.count : 0) + SHEET_END_BYTES);
}

/* ---- the run ---- */

void compare_sheets(unsigned long percent)
{
    sheet_end = room_end(MOST_SHEET);
    header_end = room_end(MARGIN + 64);
    compare_damaged(300 * percent);
    compare_ledgers(6 * percent);
    now.ledger = NULL;
}

static const char *const field_name[SHEET_FIELDS] = { "the header", "a row", "the end", "what is behind the end" };
static const char *const head_name[HEAD_NUMBERS] = { "PRN", "IOD SSR", "IODP", "rows" };
static const char *const row_name[ROW_NUMBERS] = { "slot", "IODN", "IOD Corr", "radial", "along", "cross", "clock", "URA" };
static const char *const wrong_name[] = { "missing", "tag", "length", "cut short", "not rising" };

static const char *name_of(int field, int wrong)
{
    return field == BEHIND_END ? "bytes"
         : wrong < WRONG_NUMBER ? wrong_name[wrong]
         : field == HEAD_FIELD  ? head_name[wrong - WRONG_NUMBER]
                                : row_name[wrong - WRONG_NUMBER];
}

/* Whether a field can be wrong in a way. */
static bool can_be(int field, int wrong)
{
    if (field == BEHIND_END)
        return wrong == OTHER_LENGTH;
    if (wrong == NOT_RISING)
        return field == ROW_FIELD;
    return wrong < WRONG_NUMBER + (field == HEAD_FIELD ? HEAD_NUMBERS : field == ROW_FIELD ? ROW_NUMBERS : 0);
}

static const uint8_t wanted_rows[] = { 0, 1, 63, 64, 65, 173, 174 };

static void print_sizes(const char *what, const unsigned long *of)
{
    printf("%s:", what);
    for (size_t i = 0; i < sizeof wanted_rows; i++)
        printf(" %lu of %u rows%s", of[wanted_rows[i]], wanted_rows[i], i + 1 < sizeof wanted_rows ? "," : "\n");
}

void print_sheets(void)
{
    for (int field = 0; field < SHEET_FIELDS; field++) {
        printf("sheets, %s wrong:", field_name[field]);
        for (int wrong = 0; wrong < WRONGS; wrong++)
            if (can_be(field, wrong))
                printf(" %s %lu", name_of(field, wrong), ref_sheet_wrong[field][wrong]);
        printf("\n");
    }
    print_sizes("lists for sheets", lists_of);
    print_sizes("sheets read", sheets_read_of);
    printf("%lu rooms exact, %lu own sheets accepted, accepted with none left out %lu, one %lu, more %lu, all %lu\n",
           rooms_exact, own_accepted, left_out[0], left_out[1], left_out[2], left_out[3]);
}

static bool too_seldom(const char *what, const char *which, unsigned long times, unsigned long wanted)
{
    if (times < wanted)
        printf("compare: sheets: %s %s came only %lu times\n", what, which, times);
    return times < wanted;
}

bool too_few_sheets(void)
{
    bool few = false;
    char number[32];

    for (int field = 0; field < SHEET_FIELDS; field++)
        for (int wrong = 0; wrong < WRONGS; wrong++)
            if (can_be(field, wrong))
                few |= too_seldom(field_name[field], name_of(field, wrong), ref_sheet_wrong[field][wrong], WANTED);
    for (size_t k = 0; k <= MOST_SHEET_ROWS; k++)
        for (size_t more = 0; more <= SHEET_END_BYTES; more += SHEET_END_BYTES) {
            snprintf(number, sizeof number, "%zu", ref_sheet_row_at(k) + more);
            few |= too_seldom("refusal 23 at", number, refused_at[ref_sheet_row_at(k) + more], 20);
        }
    few |= too_seldom("refusal 23 at", "0", refused_at[0], WANTED);
    for (size_t i = 0; i < sizeof wanted_rows; i++) {
        snprintf(number, sizeof number, "%u rows", wanted_rows[i]);
        few |= too_seldom("a list of", number, lists_of[wanted_rows[i]], 30);
        few |= too_seldom("a sheet read of", number, sheets_read_of[wanted_rows[i]], 30);
    }
    for (int i = 1; i < ROW_NUMBERS; i++)
        few |= too_seldom("another", row_name[i], number_changed[i], 300);
    for (int i = 0; i < 4; i++)
        few |= too_seldom("accepted, by rows left out,", (const char *[]){ "none", "one", "more", "all" }[i], left_out[i], 100);
    few |= too_seldom("own sheets", "accepted", own_accepted, 100);
    return few | too_seldom("a room", "that is just enough", rooms_exact, WANTED);
}
