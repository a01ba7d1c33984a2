/* make_examples FOLDER
 *
 * Writes the frames of the ledger's worked examples, a file for each case, into
 * FOLDER, and to standard output what the program `examples` must write about
 * them. Always the same bytes.
 *
 * What must be written is put down here by hand, from the rules, beside each
 * frame: the number that it is refused with (0: taken) and, where the list is
 * asked after it, the rows. A remark says which rule gives it. The independent
 * implementation makes the frames, and is run beside them: where it answers
 * otherwise than what is put down, nothing is made.
 *
 * All ledgers are for PRN 60. Issues: slot 19 is 37, slot 64 is 88, others none.
 * A row is the slot's when mask, orbit and clock agree; values are raw times 16
 * (radial, clock) or times 64 (along, cross). */
#include "ref.c" /* for its two parity tables, beside what ref.h has */
#include "sheet.h"

#include <stdio.h>

enum { PRN = 60, OTHER_PRN = 59, WITHDRAWN = 0x20, UNUSABLE_15 = -16384, UNUSABLE_13 = -4096 };

/* Rows as they are to be written. Slot 19, IODN 37, corr 2, along -50 * 64,
 * cross 20 * 64, URA code 19: 3^2 * (4 + 3) - 4 = 59. Slot 64, IODN 88, radial
 * -1 * 16, along 0, cross 4095 * 64, URA code 63. */
#define ROW_19_URA(radial, clock, ura)                                                                        \
    "    slot 19, BeiDou 19, IODN 37, corr 2, radial " radial ", along -3200, cross 1280, clock " clock \
    ", URA " ura "\n"
#define ROW_19(radial, clock) ROW_19_URA(radial, clock, "59")
#define ROW_64(clock) \
    "    slot 64, GPS 1, IODN 88, corr 2, radial -16, along 0, cross 262080, clock " clock ", URA above\n"
#define NO_ROWS ""

/* The correction sheet of the whole list, as the change request prints it: header
 * with PRN 60, IOD SSR 1, IODP 5 and one row; slot 19, IODN 37, corr 2, 1600, -3200,
 * 1280, -2400, URA code 19; the end. */
#define SHEET                                                                                                  \
    "01 00 05 3C 01 05 00 01 02 00 15 13 00 25 02 00 00 06 40 FF FF F3 80 00 00 05 00 FF FF F6 A0 13 FF 00 00"

/* ---- a case ---- */

static const char *folder, *name;
static FILE *file;
static struct ledger ledger;
static uint16_t issues[SLOTS];
static unsigned handed;

static void stop(const char *what)
{
    fprintf(stderr, "make_examples: %s, frame %u: %s\n", name, handed, what);
    exit(1);
}

static void begin(const char *case_name)
{
    char path[4096];
    name = case_name;
    handed = 0;
    snprintf(path, sizeof path, "%s/%s", folder, name);
    file = fopen(path, "wb");
    if (file == NULL)
        stop("the file cannot be written");
    ref_open(&ledger, PRN);
    printf("%s:", name);
}

static void end(void)
{
    if (fclose(file) != 0)
        stop("the file could not be written");
    printf("\n");
}

/* A row as the program writes it. */
static void row_text(const struct row *row, char *text, size_t room)
{
    static const char *const systems[] = { "reserved", "BeiDou", "GPS", "Galileo", "GLONASS" };
    char ura[16];
    snprintf(ura, sizeof ura, row->ura.kind == URA_QUARTERS ? "%u" : "above", (unsigned)row->ura.quarters);
    snprintf(text, room,
             "    slot %d, %s %d, IODN %d, corr %d, radial %d, along %d, cross %d, clock %d, URA %s\n", row->slot,
             systems[row->system], row->number, row->iodn, row->iod_corr, row->radial, row->along, row->cross,
             row->clock, ura);
}

static unsigned lines(const char *text)
{
    unsigned n = 0;
    for (; *text != '\0'; text++)
        n += *text == '\n';
    return n;
}

/* Hands a frame over. `verdict` is what it must be answered, `rows` what the
 * list must be after it; NULL where the list is not asked. */
static void hand(const uint8_t *frame, size_t length, unsigned verdict, const char *rows)
{
    struct row row[ASSIGNED_SLOTS];
    char text[4096] = "";
    size_t count, used = 0;

    handed++;
    fwrite(frame, 1, length, file);
    if (ref_take(&ledger, frame, length) != verdict)
        stop("another verdict than the one put down");
    if (rows == NULL) {
        printf(" %u", verdict);
        return;
    }
    if (ref_rows(&ledger, issues, SLOTS, row, &count) != 0)
        stop("the list is refused");
    for (size_t i = 0; i < count; i++) {
        row_text(&row[i], text + used, sizeof text - used);
        used += strlen(text + used);
    }
    if (strcmp(text, rows) != 0)
        stop("another list than the one put down");
    printf("\n  frame %u: %u, rows %u", handed, verdict, lines(rows));
    if (rows[0] != '\0')
        printf("\n%.*s", (int)(strlen(rows) - 1), rows);
}

/* ---- messages and frames ---- */

static void message_of(const struct contents *c, uint8_t message[MESSAGE_BYTES])
{
    if (ref_write(c, message, MESSAGE_BYTES) != 0)
        stop("the message cannot be written");
}

static void sign(uint8_t message[MESSAGE_BYTES]) { ref_put_bits(message, CHECKED_BITS, 24, ref_check(message)); }

static void hand_message(const uint8_t message[MESSAGE_BYTES], unsigned verdict, const char *rows)
{
    uint8_t frame[FRAME_BYTES];
    ref_encode(message, PRN, 0, frame);
    hand(frame, FRAME_BYTES, verdict, rows);
}

static void hand_contents(struct contents c, unsigned verdict, const char *rows)
{
    uint8_t message[MESSAGE_BYTES];
    message_of(&c, message);
    hand_message(message, verdict, rows);
}

/* Contents with one field written over; the check is made anew. */
static void hand_patched(struct contents c, size_t at, unsigned width, uint32_t value, unsigned verdict)
{
    uint8_t message[MESSAGE_BYTES];
    message_of(&c, message);
    ref_put_bits(message, at, width, value);
    sign(message);
    hand_message(message, verdict, NULL);
}

/* Where fields lie that are written over. */
enum {
    EPOCH_1_2_4 = 6,
    NUM_C = 6,
    NUM_O = 11,
    EPOCH_6_7 = 14,
    SLOT_S = 14 + 27,
    FIRST_ORBIT_2 = 6 + 23,
    FIRST_CLOCK_7 = 14 + 23,
    ORBITS_AFTER_1_CLOCK_6 = 14 + 36 + 18,
    ORBITS_AFTER_1_CLOCK_7 = 14 + 23 + 27
};

static void mask_head(struct contents *c, unsigned ssr, unsigned iodp)
{
    memset(c, 0, sizeof *c);
    c->kind = 1;
    c->mask.epoch = 3600;
    c->mask.iod_ssr = (uint8_t)ssr;
    c->mask.iodp = (uint8_t)iodp;
}

/* Type 1: slots 3, 19, 64, 101; with `front`, slot 5 too. */
static struct contents mask_of(unsigned ssr, unsigned iodp, bool front)
{
    struct contents c;
    mask_head(&c, ssr, iodp);
    c.mask.set[3] = c.mask.set[19] = c.mask.set[64] = c.mask.set[101] = true;
    c.mask.set[5] = front;
    return c;
}

/* Type 1: slots 19, 64. */
static struct contents mask_of_two(unsigned ssr, unsigned iodp)
{
    struct contents c;
    mask_head(&c, ssr, iodp);
    c.mask.set[19] = c.mask.set[64] = true;
    return c;
}

/* Type 1, SSR 1, IODP 5: slots 1 to `count`. */
static struct contents mask_of_first(int count)
{
    struct contents c;
    mask_head(&c, 1, 5);
    for (int slot = 1; slot <= count; slot++)
        c.mask.set[slot] = true;
    return c;
}

static struct orbit_record orbit_19(int radial)
{
    return (struct orbit_record){ 19, 37, 2, (int16_t)radial, -50, 20, ref_ura(19) };
}

static struct orbit_record orbit_64(int corr)
{
    return (struct orbit_record){ 64, 88, (uint8_t)corr, -1, 0, 4095, ref_ura(63) };
}

/* Type 2, SSR 1, with one orbit. */
static struct contents orbit_alone(struct orbit_record o)
{
    struct contents c = { .kind = 2 };
    c.orbits.epoch = 3606;
    c.orbits.iod_ssr = 1;
    c.orbits.record[0] = o;
    return c;
}

/* Type 2, SSR 1: the orbits of slots 19, corr 2, and 64, corr 2 or another. */
static struct contents orbits_of(int corr_64)
{
    struct contents c = orbit_alone(orbit_19(100));
    c.orbits.record[1] = orbit_64(corr_64);
    return c;
}

/* Type 4 with records that are all zero. */
static struct contents four(unsigned ssr, unsigned iodp, unsigned sub)
{
    struct contents c = { .kind = 4 };
    c.clocks.epoch = 3612;
    c.clocks.iod_ssr = (uint8_t)ssr;
    c.clocks.iodp = (uint8_t)iodp;
    c.clocks.first = (uint16_t)sub;
    return c;
}

/* Type 4, SSR 1, IODP 5, sub-type 0, whose records begin with these clocks, corr 2. */
static struct contents four_clocks(int a, int b, int c, int d)
{
    struct contents f = four(1, 5, 0);
    f.clocks.record[0] = (struct clock_record){ 0, 2, (int16_t)a };
    f.clocks.record[1] = (struct clock_record){ 0, 2, (int16_t)b };
    f.clocks.record[2] = (struct clock_record){ 0, 2, (int16_t)c };
    f.clocks.record[3] = (struct clock_record){ 0, 2, (int16_t)d };
    return f;
}

/* Type 6 with counts; its first clock has corr 2, its orbits slots 201 and on. */
static struct contents six(unsigned ssr, unsigned iodp, unsigned first, unsigned num_c, int clock, unsigned num_o)
{
    struct contents c = four(ssr, iodp, first);
    c.kind = 6;
    c.clocks.count = (uint8_t)num_c;
    c.clocks.record[0] = (struct clock_record){ 0, 2, (int16_t)clock };
    c.orbits.epoch = 3612;
    c.orbits.iod_ssr = 1;
    c.orbits.count = (uint8_t)num_o;
    for (unsigned i = 0; i < num_o && i < ORBITS; i++)
        c.orbits.record[i].slot = (uint16_t)(201 + i);
    return c;
}

/* Type 6 with an orbit of slot 19 too. */
static struct contents six_with_orbit(struct contents c, int radial)
{
    c.orbits.count = 1;
    c.orbits.record[0] = orbit_19(radial);
    return c;
}

/* Type 7, SSR 1, with counts: clocks of slots 201 and on, orbits of the same. */
static struct contents seven(unsigned num_c, unsigned num_o)
{
    struct contents c = six(1, 0, 0, num_c, 0, num_o);
    c.kind = 7;
    for (unsigned i = 0; i < num_c && i < CLOCKS; i++)
        c.clocks.record[i].slot = (uint16_t)(201 + i);
    return c;
}

/* Type 7, SSR 1, with one clock, corr 2. */
static struct contents clock_by_slot(unsigned slot, int clock)
{
    struct contents c = seven(1, 0);
    c.clocks.record[0] = (struct clock_record){ (uint16_t)slot, 2, (int16_t)clock };
    return c;
}

/* A message of a type, its data bits all ones. */
static void hand_type(unsigned type, unsigned verdict)
{
    uint8_t message[MESSAGE_BYTES] = { 0 };
    ref_put_bits(message, 0, 6, type);
    for (size_t at = 6; at < CHECKED_BITS; at++)
        ref_put_bits(message, at, 1, 1);
    sign(message);
    hand_message(message, verdict, NULL);
}

static void flip(uint8_t *bytes, size_t bit) { bytes[bit / 8] ^= (uint8_t)(0x80 >> bit % 8); }

/* ---- the worked examples ---- */

/* The sheet of the list as it is, against the one put down. */
static void hold_sheet(void)
{
    uint8_t sheet[64];
    char text[3 * sizeof sheet + 1] = "";
    size_t n, short_by_one;

    if (ref_write_sheet(&ledger, issues, SLOTS, sheet, sizeof sheet, &n) != 0 ||
        ref_write_sheet(&ledger, issues, SLOTS, sheet, n - 1, &short_by_one) != 22)
        stop("another answer to writing the sheet than the one put down");
    for (size_t i = 0; i < n; i++)
        snprintf(text + 3 * i, sizeof text - 3 * i, i + 1 < n ? "%02X " : "%02X", sheet[i]);
    if (strcmp(text, SHEET) != 0)
        stop("another sheet than the one put down");
}

/* Type 4 has places 1 to 23: 3, 19, 64 and 101 are the four set bits. Slot 3 has
 * no orbit, slot 64's clock is unusable, slot 101 has no orbit: slot 19 alone
 * has a row, clock -150 * 16. The mask with IODP 6 differs from the one that the
 * clocks were placed by, so no slot has a clock; and the type 4, of IODP 5, does
 * not match it: 14. */
static void whole_list(void)
{
    struct contents clocks = four(1, 5, 0);
    clocks.clocks.record[0] = (struct clock_record){ 0, 1, 7 };
    clocks.clocks.record[1] = (struct clock_record){ 0, 2, -150 };
    clocks.clocks.record[2] = (struct clock_record){ 0, 4, UNUSABLE_15 };
    begin("whole-list");
    hand_contents(mask_of(1, 5, false), 0, NO_ROWS);
    hand_contents(orbits_of(4), 0, NO_ROWS); /* no clock yet */
    hand_contents(clocks, 0, ROW_19("1600", "-2400"));
    hold_sheet();
    hand_contents(mask_of(1, 6, true), 0, NO_ROWS);
    hand_contents(clocks, 14, NO_ROWS);
    end();
}

/* The last second of a day is 86399; 10 is for an epoch of any part that is there. */
static void epochs(void)
{
    struct contents c;
    begin("epochs");
    c = mask_of(1, 5, false);
    c.mask.epoch = 86399;
    hand_contents(c, 0, NULL);
    hand_patched(c, EPOCH_1_2_4, 17, 86400, 10);
    c = orbits_of(2);
    c.orbits.epoch = 86399;
    hand_contents(c, 0, NULL);
    hand_patched(c, EPOCH_1_2_4, 17, 86400, 10);
    c = four(1, 5, 0);
    c.clocks.epoch = 86399;
    hand_contents(c, 0, NULL);
    hand_patched(c, EPOCH_1_2_4, 17, 86400, 10);
    c = six(1, 5, 1, 1, 0, 1);
    c.clocks.epoch = c.orbits.epoch = 86399;
    hand_contents(c, 0, NULL);
    hand_patched(c, EPOCH_6_7, 17, 86400, 10);
    hand_patched(c, ORBITS_AFTER_1_CLOCK_6, 17, 86400, 10);
    c = seven(1, 1);
    c.clocks.epoch = c.orbits.epoch = 86399;
    hand_contents(c, 0, NULL);
    hand_patched(c, EPOCH_6_7, 17, 86400, 10);
    hand_patched(c, ORBITS_AFTER_1_CLOCK_7, 17, 86400, 10);
    end();
}

/* Sub-types 0, 1, 2 begin with places 1, 24, 47: the third is past 46. So is
 * place 47 in type 6, alone or after place 46: that is 19. */
static void set_bits_46(void)
{
    begin("46-set-bits");
    hand_contents(mask_of_first(46), 0, NULL);
    hand_contents(four(1, 5, 0), 0, NULL);
    hand_contents(four(1, 5, 1), 0, NULL);
    hand_contents(four(1, 5, 2), 15, NULL);
    hand_contents(six(1, 5, 46, 1, 0, 0), 0, NULL);
    hand_contents(six(1, 5, 46, 2, 0, 0), 19, NULL);
    hand_contents(six(1, 5, 47, 1, 0, 0), 19, NULL);
    end();
}

/* Sub-type 2 begins with place 47, of 48, and ends with filler; sub-type 3 begins
 * with 70: 15. In type 6 from place 47 two clocks end with 48, three with 49: 19;
 * 48 alone is the last, 49 is past it. No filler in type 6: 22 clocks from place
 * 47 on are refused. */
static void set_bits_48(void)
{
    begin("48-set-bits");
    hand_contents(mask_of_first(48), 0, NULL);
    hand_contents(four(1, 5, 2), 0, NULL);
    hand_contents(four(1, 5, 3), 15, NULL);
    hand_contents(six(1, 5, 47, 2, 0, 0), 0, NULL);
    hand_contents(six(1, 5, 47, 3, 0, 0), 19, NULL);
    hand_contents(six(1, 5, 48, 1, 0, 0), 0, NULL);
    hand_contents(six(1, 5, 49, 1, 0, 0), 19, NULL);
    hand_contents(six(1, 5, 47, 22, 0, 0), 19, NULL);
    end();
}

/* No satellite has place 1, so each of the 32 sub-types is refused 15, and a
 * clock of type 6 is refused 19. A type 4 or type 6 that does not match is
 * refused 14. A type 6 without clocks names no place. */
static void empty_mask(void)
{
    begin("empty-mask");
    hand_contents(mask_of_first(0), 0, NULL);
    for (unsigned sub = 0; sub < 32; sub++)
        hand_contents(four(1, 5, sub), 15, NULL);
    hand_contents(six(1, 5, 1, 1, 0, 0), 19, NULL);
    hand_contents(four(1, 6, 0), 14, NULL);
    hand_contents(six(1, 6, 1, 1, 0, 0), 14, NULL);
    hand_contents(six(1, 5, 0, 0, 0, 1), 0, NULL);
    end();
}

/* Type 6: 22 and 0 end at 14 + 36 + 396 = 446; 23 and 0 at 464; 2 and 5 at 86 +
 * 368 = 454; 3 and 5 at 472; 0 and 6 at 14 + 23 + 414 = 451; 0 and 7 at 520.
 * Type 7: 15 and 0 at 14 + 23 + 405 = 442; 16 and 0 at 469; 2 and 5 at 91 + 368
 * = 459; 3 and 5 at 486; 0 and 6, 0 and 7 as type 6. 9 is for an end after 462.
 * The mask has the places. */
static void ends(void)
{
    begin("ends");
    hand_contents(mask_of_first(46), 0, NULL);
    hand_contents(six(1, 5, 1, 22, 0, 0), 0, NULL);
    hand_patched(six(1, 5, 1, 22, 0, 0), NUM_C, 5, 23, 9);
    hand_contents(six(1, 5, 1, 2, 0, 5), 0, NULL);
    hand_patched(six(1, 5, 1, 2, 0, 5), NUM_C, 5, 3, 9);
    hand_contents(six(1, 5, 0, 0, 0, 6), 0, NULL);
    hand_patched(six(1, 5, 0, 0, 0, 6), NUM_O, 3, 7, 9);
    hand_contents(seven(15, 0), 0, NULL);
    hand_patched(seven(15, 0), NUM_C, 5, 16, 9);
    hand_contents(seven(2, 5), 0, NULL);
    hand_patched(seven(2, 5), NUM_C, 5, 3, 9);
    hand_contents(seven(0, 6), 0, NULL);
    hand_patched(seven(0, 6), NUM_O, 3, 7, 9);
    end();
}

/* Every bit of a mask can be set, also those of reserved slots. A slot is at most 255, Slot_S too and not
 * 0; one slot may not stand twice among a message's orbits, nor twice among the
 * clocks of type 7, but once in each part. The mask in force has one set bit, so
 * Slot_S 255 is allowed and no satellite has the place: 19. */
static void slots(void)
{
    struct contents c;
    begin("slots");
    mask_head(&c, 1, 5);
    c.mask.set[174] = true;
    hand_contents(c, 0, NULL);
    c.mask.set[175] = c.mask.set[255] = true;
    hand_contents(c, 0, NULL);
    c.mask.set[175] = c.mask.set[255] = false;
    hand_contents(c, 0, NULL);
    c = orbit_alone((struct orbit_record){ .slot = 255 });
    hand_contents(c, 0, NULL);
    hand_patched(c, FIRST_ORBIT_2, 9, 256, 11);
    c = orbits_of(2);
    hand_patched(c, FIRST_ORBIT_2 + 69, 9, 19, 12);
    c = seven(2, 0);
    c.clocks.record[0].slot = 255;
    hand_contents(c, 0, NULL);
    hand_patched(c, FIRST_CLOCK_7, 9, 256, 11);
    hand_patched(c, FIRST_CLOCK_7 + 27, 9, 255, 12);
    hand_contents(seven(1, 1), 0, NULL); /* slot 201 in both parts */
    c = six(1, 5, 255, 1, 0, 0);
    hand_contents(c, 19, NULL);
    hand_patched(c, SLOT_S, 9, 0, 11);
    hand_patched(c, SLOT_S, 9, 256, 11);
    end();
}

/* ---- frames ---- */

/* Each frame is that of a good mask, taken first, but for one thing. */
static void frames(void)
{
    struct contents c = mask_of(1, 5, false);
    uint8_t message[MESSAGE_BYTES], good[FRAME_BYTES], frame[FRAME_BYTES];

    begin("frames");
    message_of(&c, message);
    ref_encode(message, PRN, 0, good);
    hand(good, FRAME_BYTES, 0, NULL);
    memcpy(frame, good, FRAME_BYTES);
    flip(frame, 15); /* sync 0xEB91 */
    hand(frame, FRAME_BYTES, 3, NULL);
    ref_encode(message, OTHER_PRN, 0, frame);
    hand(frame, FRAME_BYTES, 4, NULL);
    ref_encode(message, PRN, WITHDRAWN, frame);
    hand(frame, FRAME_BYTES, 5, NULL);
    ref_encode(message, PRN, WITHDRAWN - 1, frame); /* only the first flag is looked at */
    hand(frame, FRAME_BYTES, 0, NULL);
    memcpy(frame, good, FRAME_BYTES);
    flip(frame, CODED_BIT + 6 * 40); /* a message symbol */
    hand(frame, FRAME_BYTES, 6, NULL);
    flip(message, 100); /* a wrong check under right parity */
    hand_message(message, 7, NULL);
    memset(message, 0, MESSAGE_BYTES); /* the check of zeros is zero; type 0 */
    hand_message(message, 8, NULL);
    hand_type(3, 9);  /* 31 satellites of 15 biases */
    hand_type(5, 10); /* an epoch of all ones */
    hand_type(8, 8);
    hand_type(62, 8);
    hand_type(63, 0); /* a null message's data bits are ignored */
    hand(good, 57, 1, NULL);
    end();
}

/* Each frame has a fault, and one or more of the later ones with it. */
static void lowest_first(void)
{
    struct contents c = mask_of(1, 5, false);
    uint8_t message[MESSAGE_BYTES], frame[FRAME_BYTES];

    begin("lowest-first");
    hand_contents(c, 0, NULL);
    message_of(&c, message);
    flip(message, 100); /* check */
    ref_encode(message, OTHER_PRN, WITHDRAWN, frame);
    flip(frame, 999); /* parity */
    flip(frame, 15);  /* sync */
    hand(frame, FRAME_BYTES, 3, NULL);
    flip(frame, 15);
    hand(frame, FRAME_BYTES, 4, NULL);
    ref_put_bits(frame, 16, 6, PRN);
    hand(frame, FRAME_BYTES, 5, NULL);
    ref_put_bits(frame, 22, 6, 0);
    hand(frame, FRAME_BYTES, 6, NULL);
    memset(message, 0, MESSAGE_BYTES);
    flip(message, CHECKED_BITS - 1); /* check, and type 0 */
    hand_message(message, 7, NULL);
    hand_type(8, 8); /* the type, and an epoch of all ones */
    hand_type(3, 9); /* the end, the epoch and the slot */
    c = six(1, 5, 1, 2, 0, 5);
    message_of(&c, message);
    ref_put_bits(message, NUM_C, 5, 3);          /* the end, */
    ref_put_bits(message, EPOCH_6_7, 17, 86400); /* and the epoch */
    sign(message);
    hand_message(message, 9, NULL);
    c = six(1, 5, 1, 1, 0, 1);
    message_of(&c, message);
    ref_put_bits(message, EPOCH_6_7, 17, 86400); /* the epoch, */
    ref_put_bits(message, SLOT_S, 9, 0);         /* and Slot_S */
    sign(message);
    hand_message(message, 10, NULL);
    c = orbits_of(2);
    c.orbits.record[2] = c.orbits.record[3] = (struct orbit_record){ .slot = 20 };
    c.orbits.record[3].slot = 21;
    message_of(&c, message);
    ref_put_bits(message, FIRST_ORBIT_2, 9, 256);          /* a slot of 256, */
    ref_put_bits(message, FIRST_ORBIT_2 + 3 * 69, 9, 20); /* and slot 20 twice */
    sign(message);
    hand_message(message, 11, NULL);
    c = six(1, 6, 9, 1, 0, 2); /* IODP and place, */
    hand_patched(c, ORBITS_AFTER_1_CLOCK_6 + 23 + 69, 9, 201, 12); /* and slot 201 twice */
    hand_contents(six(1, 6, 9, 1, 0, 0), 14, NULL); /* IODP and place */
    hand_contents(six(1, 5, 9, 1, 0, 0), 19, NULL); /* the place alone */
    hand_contents(four(1, 6, 1), 14, NULL);         /* IODP and place */
    hand_contents(four(1, 5, 1), 15, NULL);         /* the place alone */
    memset(frame, 0, FRAME_BYTES);
    hand(frame, 124, 1, NULL); /* short, and no sync */
    end();
}

/* ---- slips that look right ---- */

/* The 81 groups are printed in four columns of 21, 21, 21 and 18 lines. The
 * number, in print's order down the columns, of the group that is k-th across. */
static int across(int k)
{
    const int full = 18 * 4; /* the lines that have four columns */
    return k < full ? k % 4 * 21 + k / 4 : (k - full) % 3 * 21 + 18 + (k - full) / 3;
}

/* A frame whose parity symbols solve the groups of someone who reads positions
 * across and factors down. */
static void encode_across(const uint8_t message[MESSAGE_BYTES], uint8_t frame[FRAME_BYTES])
{
    static uint8_t h[GROUPS][MESSAGE_SYMBOLS + 1]; /* parity symbols, then the message's sum */

    ref_encode(message, PRN, 0, frame);
    memset(h, 0, sizeof h);
    for (int g = 0; g < GROUPS; g++)
        for (int k = 0; k < 4; k++) {
            int at = position[across(g)][k];
            if (at >= MESSAGE_SYMBOLS)
                h[g][at - MESSAGE_SYMBOLS] = factor[g][k];
            else
                h[g][GROUPS] ^= ref_times(factor[g][k], (uint8_t)ref_get_bits(message, 6 * (size_t)at, 6));
        }
    for (int p = 0; p < GROUPS; p++) {
        int pivot = p;
        while (pivot < GROUPS && h[pivot][p] == 0)
            pivot++;
        if (pivot == GROUPS)
            stop("the groups read across have no solution");
        for (int j = 0; pivot != p && j <= GROUPS; j++)
            h[p][j] ^= h[pivot][j];
        uint8_t by = inverse(h[p][p]);
        for (int j = 0; j <= GROUPS; j++)
            h[p][j] = ref_times(h[p][j], by);
        for (int i = 0; i < GROUPS; i++) {
            uint8_t times = i == p ? 0 : h[i][p];
            for (int j = 0; j <= GROUPS; j++)
                h[i][j] ^= ref_times(h[p][j], times);
        }
    }
    for (int p = 0; p < GROUPS; p++)
        ref_put_bits(frame, CODED_BIT + 6 * (size_t)(MESSAGE_SYMBOLS + p), 6, h[p][GROUPS]);
}

/* Reading the printed parity lines across and the factors down: the first frame
 * would be taken and the second refused. Then the second with its first and its
 * last symbol changed. */
static void printed_across(void)
{
    struct contents c = mask_of(1, 5, false);
    uint8_t message[MESSAGE_BYTES], frame[FRAME_BYTES];

    begin("printed-across");
    message_of(&c, message);
    encode_across(message, frame);
    hand(frame, FRAME_BYTES, 6, NULL);
    ref_encode(message, PRN, 0, frame);
    hand(frame, FRAME_BYTES, 0, NULL);
    flip(frame, CODED_BIT);
    hand(frame, FRAME_BYTES, 6, NULL);
    flip(frame, CODED_BIT);
    flip(frame, 999);
    hand(frame, FRAME_BYTES, 6, NULL);
    end();
}

/* Re-reading stored clocks by place after a new mask. Places 2 and 3 are slots
 * 19 and 64. With slot 5 in front, place 3 is slot 19: re-read by place it would
 * have slot 64's clock, 480, which fits its orbit's corr. By slot, the clocks by
 * place fall; that of slot 64, which came by slot, stays, 144. A return to the
 * old mask revives nothing, and the type 4 is then taken anew, the latest for
 * slot 64 too. */
static void mask_in_front(void)
{
    begin("mask-in-front");
    hand_contents(mask_of(1, 5, false), 0, NO_ROWS);
    hand_contents(orbits_of(2), 0, NO_ROWS);
    hand_contents(four_clocks(7, -150, 30, 40), 0, ROW_19("1600", "-2400") ROW_64("480"));
    hand_contents(clock_by_slot(64, 9), 0, ROW_19("1600", "-2400") ROW_64("144"));
    hand_contents(mask_of(1, 6, true), 0, ROW_64("144"));
    hand_contents(mask_of(1, 5, false), 0, ROW_64("144"));
    hand_contents(four_clocks(7, -150, 30, 40), 0, ROW_19("1600", "-2400") ROW_64("480"));
    end();
}

/* The same with masks that differ in one bit alone; a mask that differs from the
 * one in force in its epoch alone takes no clock away. */
static void one_bit(void)
{
    struct contents later = mask_of(1, 5, false);
    later.mask.epoch = 3648;
    begin("one-bit");
    hand_contents(mask_of(1, 5, false), 0, NO_ROWS);
    hand_contents(orbits_of(2), 0, NO_ROWS);
    hand_contents(four_clocks(7, -150, 30, 40), 0, ROW_19("1600", "-2400") ROW_64("480"));
    hand_contents(later, 0, ROW_19("1600", "-2400") ROW_64("480"));
    hand_contents(mask_of(1, 5, true), 0, NO_ROWS);
    hand_contents(mask_of(1, 5, false), 0, NO_ROWS);
    hand_contents(four_clocks(7, -150, 30, 40), 0, ROW_19("1600", "-2400") ROW_64("480"));
    end();
}

/* Comparing IODP and forgetting IOD SSR. Under the mask of SSR 2 no orbit and no
 * clock, all of SSR 1, has its SSR; a type 4 or type 6 of SSR 1 is refused 14,
 * though its IODP is the mask's. Back under the first mask the clock of slot 64,
 * by slot, shows again; that of slot 19 fell when the masks differed. */
static void ssr_alone(void)
{
    begin("ssr-alone");
    hand_contents(mask_of_two(1, 5), 0, NO_ROWS);
    hand_contents(orbits_of(2), 0, NO_ROWS);
    hand_contents(four_clocks(-150, 30, 0, 0), 0, ROW_19("1600", "-2400") ROW_64("480"));
    hand_contents(clock_by_slot(64, 9), 0, ROW_19("1600", "-2400") ROW_64("144"));
    hand_contents(mask_of_two(2, 5), 0, NO_ROWS);
    hand_contents(four_clocks(-150, 30, 0, 0), 14, NO_ROWS);
    hand_contents(six(1, 5, 1, 1, -150, 0), 14, NO_ROWS);
    hand_contents(mask_of_two(1, 5), 0, ROW_64("144"));
    hand_contents(four_clocks(-150, 30, 0, 0), 0, ROW_19("1600", "-2400") ROW_64("480"));
    end();
}

/* The latest clock of slot 19 came by place and falls with its mask; the older
 * one, by slot, does not come back. */
static void older_clock(void)
{
    begin("older-clock");
    hand_contents(mask_of_two(1, 5), 0, NO_ROWS);
    hand_contents(orbits_of(2), 0, NO_ROWS);
    hand_contents(clock_by_slot(19, 9), 0, ROW_19("1600", "144"));
    hand_contents(four_clocks(-150, 30, 0, 0), 0, ROW_19("1600", "-2400") ROW_64("480"));
    hand_contents(mask_of_two(1, 6), 0, NO_ROWS);
    hand_contents(clock_by_slot(19, 9), 0, ROW_19("1600", "144"));
    end();
}

/* Taking the orbit part of a type 6 whose clock part is refused: radial 200 *
 * 16 = 3200 would show. Refused for its IODP, for its SSR, for the place 3 of
 * two; then the same type 6 without a fault, which is taken with clock 11 * 16;
 * and one without clocks, which no mask has to match. */
static void refused_six(void)
{
    begin("refused-six");
    hand_contents(mask_of_two(1, 5), 0, NO_ROWS);
    hand_contents(orbit_alone(orbit_19(100)), 0, NO_ROWS);
    hand_contents(four_clocks(-150, 30, 0, 0), 0, ROW_19("1600", "-2400"));
    hand_contents(six_with_orbit(six(1, 6, 1, 1, 11, 0), 200), 14, ROW_19("1600", "-2400"));
    hand_contents(six_with_orbit(six(2, 5, 1, 1, 11, 0), 200), 14, ROW_19("1600", "-2400"));
    hand_contents(six_with_orbit(six(1, 5, 1, 3, 11, 0), 200), 19, ROW_19("1600", "-2400"));
    hand_contents(six_with_orbit(six(1, 5, 1, 1, 11, 0), 200), 0, ROW_19("3200", "176"));
    hand_contents(six_with_orbit(six(1, 6, 0, 0, 0, 0), 300), 0, ROW_19("4800", "176"));
    end();
}

/* Keeping the last usable clock when an unusable one arrives: the row would
 * stay. By type 4, by type 7, by type 6; after each a usable one. -16383 is the
 * least usable value, -262128. */
static void unusable_clock(void)
{
    begin("unusable-clock");
    hand_contents(mask_of_two(1, 5), 0, NO_ROWS);
    hand_contents(orbit_alone(orbit_19(100)), 0, NO_ROWS);
    hand_contents(four_clocks(-150, 0, 0, 0), 0, ROW_19("1600", "-2400"));
    hand_contents(four_clocks(UNUSABLE_15, 0, 0, 0), 0, NO_ROWS);
    hand_contents(clock_by_slot(19, 9), 0, ROW_19("1600", "144"));
    hand_contents(clock_by_slot(19, UNUSABLE_15), 0, NO_ROWS);
    hand_contents(six(1, 5, 1, 1, -16383, 0), 0, ROW_19("1600", "-262128"));
    hand_contents(six(1, 5, 1, 1, UNUSABLE_15, 0), 0, NO_ROWS);
    end();
}

/* ---- what a row asks ---- */

/* Clocks by place need a mask, others do not: orbit and clock by slot are kept,
 * and show when the mask comes. */
static void no_mask(void)
{
    struct contents null = { .kind = 63 };
    begin("no-mask");
    hand_contents(four_clocks(-150, 30, 0, 0), 14, NO_ROWS);
    hand_contents(six_with_orbit(six(1, 5, 1, 1, -150, 0), 200), 14, NO_ROWS);
    hand_contents(null, 0, NO_ROWS);
    hand_contents(six_with_orbit(six(1, 5, 0, 0, 0, 0), 100), 0, NO_ROWS);
    hand_contents(clock_by_slot(19, 9), 0, NO_ROWS);
    hand_contents(mask_of_two(1, 5), 0, ROW_19("1600", "144"));
    end();
}

/* With clock and mask in force, an orbit with one thing amiss, the latest, takes
 * the row away: another corr than the clock's, another IODN than the issue,
 * another SSR than the mask's, URA code 0, a value that is unusable. The ends of
 * the ranges do not: 16383 * 16, -4095 * 64, 4095 * 64, URA code 62. Then a clock
 * of another SSR than the mask's, and one that has it; a mask without the slot,
 * and one that has it again: the clock came by slot and is still there. */
static void amiss(void)
{
    static const char ends_row[] = "    slot 19, BeiDou 19, IODN 37, corr 2, radial 262128, along -262080, "
                                   "cross 262080, clock -2400, URA 21866\n";
    struct orbit_record o;
    struct contents other_ssr = orbit_alone(orbit_19(100)), other_clock = clock_by_slot(19, -150), without;
    other_ssr.orbits.iod_ssr = 2;
    other_clock.clocks.iod_ssr = 2;
    without = mask_of_two(1, 6);
    without.mask.set[19] = false;
    begin("amiss");
    hand_contents(mask_of_two(1, 5), 0, NO_ROWS);
    hand_contents(clock_by_slot(19, -150), 0, NO_ROWS);
    hand_contents(orbit_alone(orbit_19(100)), 0, ROW_19("1600", "-2400"));
    o = orbit_19(100);
    o.iod_corr = 3;
    hand_contents(orbit_alone(o), 0, NO_ROWS);
    o = orbit_19(100);
    o.iodn = 38;
    hand_contents(orbit_alone(o), 0, NO_ROWS);
    hand_contents(other_ssr, 0, NO_ROWS);
    o = orbit_19(100);
    o.ura = ref_ura(0);
    hand_contents(orbit_alone(o), 0, NO_ROWS);
    hand_contents(orbit_alone(orbit_19(UNUSABLE_15)), 0, NO_ROWS);
    o = orbit_19(100);
    o.along = UNUSABLE_13;
    hand_contents(orbit_alone(o), 0, NO_ROWS);
    o = orbit_19(100);
    o.cross = UNUSABLE_13;
    hand_contents(orbit_alone(o), 0, NO_ROWS);
    o = (struct orbit_record){ 19, 37, 2, 16383, -4095, 4095, ref_ura(62) };
    hand_contents(orbit_alone(o), 0, ends_row);
    hand_contents(other_clock, 0, NO_ROWS);
    hand_contents(clock_by_slot(19, -150), 0, ends_row);
    hand_contents(without, 0, NO_ROWS);
    hand_contents(mask_of_two(1, 5), 0, ends_row);
    end();
}

/* SSR 0, IODP 0, corr 0, values 0, URA code 1: no clock is not a clock of zeros.
 * The type 4 brings one; the next mask takes it away. */
static void zeros(void)
{
    struct contents orbit = orbit_alone((struct orbit_record){ 19, 37, 0, 0, 0, 0, ref_ura(1) });
    orbit.orbits.iod_ssr = 0;
    begin("zeros");
    hand_contents(mask_of_two(0, 0), 0, NO_ROWS);
    hand_contents(orbit, 0, NO_ROWS);
    hand_contents(four(0, 0, 0), 0,
                  "    slot 19, BeiDou 19, IODN 37, corr 0, radial 0, along 0, cross 0, clock 0, URA 1\n");
    hand_contents(mask_of_two(0, 1), 0, NO_ROWS);
    end();
}

/* ---- what needs no frame ---- */

/* ---- the newest epoch ---- */

/* Contents with another epoch, of both parts. */
static struct contents at(uint32_t epoch, struct contents c)
{
    c.clocks.epoch = c.kind == 2 ? 0 : epoch;
    c.orbits.epoch = c.kind == 2 || c.orbits.count > 0 ? epoch : 0;
    return c;
}

/* A clock of slot 19 with another IOD SSR or IOD Corr than 1 and 2. */
static struct contents clock_of_issue(unsigned ssr, unsigned corr, int clock)
{
    struct contents c = clock_by_slot(19, clock);
    c.clocks.iod_ssr = (uint8_t)ssr;
    c.clocks.record[0].iod_corr = (uint8_t)corr;
    return c;
}

/* Orbits and clocks of an hour ago, of the issue that is held, are taken and
 * change nothing; the next new ones count again. */
static void replayed_hour(void)
{
    begin("replayed-hour");
    hand_contents(mask_of(1, 5, false), 0, NO_ROWS);
    hand_contents(at(7200, orbits_of(2)), 0, NO_ROWS);
    hand_contents(at(7206, four_clocks(1, 2, 3, 4)), 0, ROW_19("1600", "32") ROW_64("48"));
    hand_contents(at(3600, orbit_alone(orbit_19(7))), 0, ROW_19("1600", "32") ROW_64("48"));
    hand_contents(at(3606, four_clocks(5, 6, 7, 8)), 0, ROW_19("1600", "32") ROW_64("48"));
    hand_contents(at(3612, clock_by_slot(19, 9)), 0, ROW_19("1600", "32") ROW_64("48"));
    hand_contents(at(7248, orbit_alone(orbit_19(10))), 0, ROW_19("160", "32") ROW_64("48"));
    hand_contents(at(7212, four_clocks(11, 12, 13, 14)), 0, ROW_19("160", "192") ROW_64("208"));
    end();
}

/* 43199 s ahead is newer, 43200 and 43201 are not; an equal epoch replaces. */
static void half_a_day(void)
{
    begin("half-a-day");
    hand_contents(mask_of(1, 5, false), 0, NO_ROWS);
    hand_contents(at(0, orbit_alone(orbit_19(1))), 0, NO_ROWS);
    hand_contents(at(0, clock_by_slot(19, 1)), 0, ROW_19("16", "16"));
    hand_contents(at(43199, clock_by_slot(19, 2)), 0, ROW_19("16", "32"));
    hand_contents(at(86399, clock_by_slot(19, 3)), 0, ROW_19("16", "32"));
    hand_contents(at(0, clock_by_slot(19, 4)), 0, ROW_19("16", "32"));
    hand_contents(at(43199, clock_by_slot(19, 5)), 0, ROW_19("16", "80"));
    hand_contents(at(43199, orbit_alone(orbit_19(2))), 0, ROW_19("32", "80"));
    hand_contents(at(86399, orbit_alone(orbit_19(3))), 0, ROW_19("32", "80"));
    hand_contents(at(0, orbit_alone(orbit_19(4))), 0, ROW_19("32", "80"));
    hand_contents(at(43199, orbit_alone(orbit_19(5))), 0, ROW_19("80", "80"));
    end();
}

/* 5 is 15 s ahead of 86390, and 86390 is not ahead of 5. */
static void over_midnight(void)
{
    begin("over-midnight");
    hand_contents(mask_of(1, 5, false), 0, NO_ROWS);
    hand_contents(at(86390, orbits_of(2)), 0, NO_ROWS);
    hand_contents(at(86390, four_clocks(1, 2, 3, 4)), 0, ROW_19("1600", "32") ROW_64("48"));
    hand_contents(at(5, four_clocks(5, 6, 7, 8)), 0, ROW_19("1600", "96") ROW_64("112"));
    hand_contents(at(86390, four_clocks(9, 10, 11, 12)), 0, ROW_19("1600", "96") ROW_64("112"));
    hand_contents(at(10, orbit_alone(orbit_19(6))), 0, ROW_19("96", "96") ROW_64("112"));
    hand_contents(at(86399, orbit_alone(orbit_19(7))), 0, ROW_19("96", "96") ROW_64("112"));
    end();
}

/* With another IOD Corr, or another IOD SSR, the latest to arrive counts, however
 * old it is: the clock then does not agree with the orbit or with the mask, and the
 * one after it is again of another issue than the one held. */
static void another_issue(void)
{
    begin("another-issue");
    hand_contents(mask_of(1, 5, false), 0, NO_ROWS);
    hand_contents(at(7200, orbit_alone(orbit_19(1))), 0, NO_ROWS);
    hand_contents(at(7200, clock_by_slot(19, 1)), 0, ROW_19("16", "16"));
    hand_contents(at(3600, clock_of_issue(1, 3, 2)), 0, NO_ROWS);
    hand_contents(at(3000, clock_by_slot(19, 3)), 0, ROW_19("16", "48"));
    hand_contents(at(2400, clock_of_issue(2, 2, 4)), 0, NO_ROWS);
    hand_contents(at(1800, clock_by_slot(19, 5)), 0, ROW_19("16", "80"));
    end();
}

/* The mask with IODP 6 drops the clocks that came by place. A dropped clock holds
 * nothing off: an older one of its issue counts. */
static void dropped_clock(void)
{
    begin("dropped-clock");
    hand_contents(mask_of(1, 5, false), 0, NO_ROWS);
    hand_contents(at(7200, orbit_alone(orbit_19(1))), 0, NO_ROWS);
    hand_contents(at(7200, four_clocks(1, 2, 3, 4)), 0, ROW_19("16", "32"));
    hand_contents(at(3600, clock_by_slot(19, 5)), 0, ROW_19("16", "32"));
    hand_contents(mask_of(1, 6, true), 0, NO_ROWS);
    hand_contents(at(3600, clock_by_slot(19, 6)), 0, ROW_19("16", "96"));
    end();
}

/* An unusable clock counts like any other: a usable one of its issue that is older
 * does not come into force, a newer one does. */
static void unusable_newer(void)
{
    begin("unusable-newer");
    hand_contents(mask_of(1, 5, false), 0, NO_ROWS);
    hand_contents(at(3600, orbit_alone(orbit_19(1))), 0, NO_ROWS);
    hand_contents(at(3600, clock_by_slot(19, 1)), 0, ROW_19("16", "16"));
    hand_contents(at(3606, clock_by_slot(19, UNUSABLE_15)), 0, NO_ROWS);
    hand_contents(at(3600, clock_by_slot(19, 2)), 0, NO_ROWS);
    hand_contents(at(3612, clock_by_slot(19, 3)), 0, ROW_19("16", "48"));
    end();
}

/* Each part of a type 7 goes by its own epoch: first its clock is newer and its
 * orbit older, then the other way round. */
static void own_epochs(void)
{
    struct contents c = seven(1, 1);
    c.clocks.record[0] = (struct clock_record){ 19, 2, 2 };
    c.orbits.record[0] = orbit_19(2);
    begin("own-epochs");
    hand_contents(mask_of(1, 5, false), 0, NO_ROWS);
    hand_contents(at(7200, orbit_alone(orbit_19(1))), 0, NO_ROWS);
    hand_contents(at(7200, clock_by_slot(19, 1)), 0, ROW_19("16", "16"));
    c.clocks.epoch = 7206;
    c.orbits.epoch = 7194;
    hand_contents(c, 0, ROW_19("16", "32"));
    c.clocks.record[0].c0 = 3;
    c.orbits.record[0] = orbit_19(3);
    c.clocks.epoch = 7200;
    c.orbits.epoch = 7206;
    hand_contents(c, 0, ROW_19("48", "32"));
    end();
}

/* Type 3, SSR 1, slots 1 and on, so many biases for the first ones as are given. */
static struct contents three(unsigned sats, unsigned biases)
{
    struct contents c = { .kind = 3 };
    c.biases.epoch = 3618;
    c.biases.iod_ssr = 1;
    c.biases.count = (uint8_t)sats;
    for (unsigned i = 0; i < sats; i++) {
        c.biases.sat[i].slot = (uint16_t)(1 + i);
        c.biases.sat[i].count = (uint8_t)(biases < 15 ? biases : 15);
        biases -= c.biases.sat[i].count;
    }
    return c;
}

/* Where a type 3 has the epoch, and its first and second satellite if the first has
 * so many biases. */
enum { EPOCH_3_5 = 6, FIRST_SAT = 34, SAT_COUNT = 9, NEXT_SAT = 13, BIAS_BITS = 16 };

/* A type 3 is 34 bits, 13 for a satellite and 16 for a bias: 12 and 17 end at 462, 28
 * and 4 too, 2 and 25 at 460. 17 and 12 end at 447; one bias more would end at 463, and
 * so would it if the satellite were blank, since a blank's biases are stepped over and
 * count. 1 and 0, made a blank with 15 biases, ends at 287. No satellite is no fault.
 * Blanks are not the same slot twice. A type 3 needs no mask and changes no list. */
static void biases(void)
{
    struct contents c;
    begin("biases");
    hand_contents(three(12, 17), 0, NULL);
    hand_contents(three(28, 4), 0, NULL);
    hand_contents(three(2, 25), 0, NULL);
    hand_contents(three(0, 0), 0, NULL);
    c = three(17, 12);
    hand_contents(c, 0, NULL);
    hand_patched(c, FIRST_SAT + SAT_COUNT, 4, 13, 9);
    c = three(17, 0);
    c.biases.sat[16].count = 12;
    hand_contents(c, 0, NULL);
    hand_patched(c, FIRST_SAT + 16 * NEXT_SAT, 13, 13, 9); /* slot 0 and 13 biases */
    hand_patched(c, FIRST_SAT + 16 * NEXT_SAT, 13, 12, 0);
    hand_patched(three(1, 0), FIRST_SAT, 13, 15, 0);
    hand_patched(three(2, 0), EPOCH_3_5, 17, 86400, 10);
    hand_patched(three(0, 0), EPOCH_3_5, 17, 86400, 10);
    hand_patched(three(2, 0), FIRST_SAT, 9, 256, 11);
    hand_patched(three(2, 0), FIRST_SAT, 9, 255, 0);
    hand_patched(three(2, 0), FIRST_SAT, 9, 2, 12);
    hand_patched(three(2, 1), FIRST_SAT + NEXT_SAT + BIAS_BITS, 9, 1, 12);
    c = three(3, 0);
    c.biases.sat[0].slot = c.biases.sat[2].slot = 0;
    hand_contents(c, 0, NULL);
    end();
}

/* Type 5, SSR 1, with a code for the second place. */
static struct contents five(unsigned iodp, unsigned sub, unsigned code)
{
    struct contents c = { .kind = 5 };
    c.codes.epoch = 3600;
    c.codes.iod_ssr = 1;
    c.codes.iodp = (uint8_t)iodp;
    c.codes.sub = (uint8_t)sub;
    c.codes.code[1] = (uint8_t)code;
    return c;
}

/* Slot 19 has the second place of the mask with slots 3, 19, 64, 101. A code that
 * comes before its orbit is lost. Code 1 is 1 quarter, 62 is 21866, 63 above, 0
 * unknown, so that the slot has no row. Codes go by arrival, not by epoch. The same
 * mask again, and an orbit of the same issue that is older, leave the code; another
 * orbit, and another mask, bring the orbit's own URA back, and the first mask again
 * brings no code back. The clock is by slot, and stays. */
static void codes(void)
{
    struct contents c;
    begin("codes");
    hand_contents(five(5, 0, 1), 14, NO_ROWS);
    hand_contents(mask_of(1, 5, false), 0, NO_ROWS);
    hand_contents(five(5, 0, 1), 0, NO_ROWS);
    hand_contents(at(7200, orbit_alone(orbit_19(1))), 0, NO_ROWS);
    hand_contents(at(7200, clock_by_slot(19, 1)), 0, ROW_19("16", "16"));
    hand_contents(five(5, 0, 1), 0, ROW_19_URA("16", "16", "1"));
    hand_contents(five(5, 0, 62), 0, ROW_19_URA("16", "16", "21866"));
    c = five(5, 0, 63);
    c.codes.epoch = 0;
    hand_contents(c, 0, ROW_19_URA("16", "16", "above"));
    hand_contents(three(2, 3), 0, ROW_19_URA("16", "16", "above"));
    hand_contents(mask_of(1, 5, false), 0, ROW_19_URA("16", "16", "above"));
    hand_contents(at(7199, orbit_alone(orbit_19(2))), 0, ROW_19_URA("16", "16", "above"));
    hand_contents(five(5, 0, 0), 0, NO_ROWS);
    hand_contents(at(7200, orbit_alone(orbit_19(3))), 0, ROW_19("48", "16"));
    hand_contents(five(5, 0, 8), 0, ROW_19_URA("48", "16", "8"));
    hand_contents(mask_of(1, 6, false), 0, ROW_19("48", "16"));
    hand_contents(five(5, 0, 1), 14, ROW_19("48", "16"));
    hand_contents(mask_of(1, 5, false), 0, ROW_19("48", "16"));
    hand_contents(five(5, 1, 1), 15, ROW_19("48", "16"));
    c = five(5, 0, 1);
    c.codes.iod_ssr = 2;
    hand_contents(c, 14, ROW_19("48", "16"));
    c = orbit_alone(orbit_19(4));
    c.orbits.record[0].ura = ref_ura(0);
    hand_contents(at(7206, c), 0, NO_ROWS);
    hand_contents(five(5, 0, 19), 0, ROW_19("64", "16"));
    end();
}

/* 70 places are sub-type 0's alone, the 71st is sub-type 1's first; the last of 255
 * is in sub-type 3. An epoch above 86399 comes before the place. */
static void set_bits_70(void)
{
    struct contents c = mask_of_first(70);
    begin("70-set-bits");
    hand_contents(c, 0, NULL);
    hand_contents(five(5, 0, 1), 0, NULL);
    hand_contents(five(5, 1, 1), 15, NULL);
    c.mask.set[71] = true;
    hand_contents(c, 0, NULL);
    hand_contents(five(5, 1, 1), 0, NULL);
    hand_contents(five(5, 2, 1), 15, NULL);
    hand_contents(mask_of_first(255), 0, NULL);
    hand_contents(five(5, 3, 1), 0, NULL);
    for (unsigned sub = 4; sub < 8; sub++)
        hand_contents(five(5, sub, 1), 15, NULL);
    hand_contents(mask_of_first(0), 0, NULL);
    hand_contents(five(5, 0, 1), 15, NULL);
    hand_patched(five(5, 0, 1), EPOCH_3_5, 17, 86400, 10);
    end();
}

/* The field, the check, the appendix's word: worked examples of the rules. The
 * print's columns have 21 lines; symbol 0 stands in line 8 of the first and line
 * 5 of the second, symbol 42 in lines 3 and 8 of the first, symbol 161 in line 16
 * of the first and line 1 of the second. A byte less, or a last bit, is refused 1
 * and 2 before all else; the check of bit 461 alone is not zero, so the message is
 * refused 7. URA codes 1 and 19: 3^0 * (4 + 1) - 4, 3^2 * (4 + 3) - 4; 62: 3^7 *
 * (4 + 6) - 4. */
static void before_the_cases(void)
{
    printf("field: 2 x 32 = 3\n"
           "field: 2 x 63 = 61\n"
           "field: 32 x 32 = 48\n"
           "check of 462 zero bits: 000000\n"
           "check with only the last bit set: 864cfb\n"
           "appendix word: parity holds\n"
           "damaged symbols caught: 162 of 162\n"
           "symbol 0 damaged: first group 8, failing 2\n"
           "symbol 42 damaged: first group 3, failing 2\n"
           "symbol 161 damaged: first group 16, failing 2\n"
           "URA code 0: unknown\n"
           "URA code 1: 1\n"
           "URA code 19: 59\n"
           "URA code 62: 21866\n"
           "URA code 63: above\n"
           "type 6, 22 and 0, ends at 446\n"
           "type 6, 2 and 5, ends at 454\n"
           "type 6, 3 and 5, ends at 472\n"
           "type 7, 15 and 0, ends at 442\n"
           "type 7, 2 and 5, ends at 459\n"
           "type 7, 3 and 5, ends at 486\n"
           "message of 61 zero bytes: 8\n"
           "message with only bit 461 set: 7\n"
           "message with only bit 487 set: 2\n"
           "message of 60 zero bytes: 1\n"
           "ledgers opened: 1 2 3 4 5 59 60 61 62 63\n");
}

/* Asked of the ledger after the first three frames of the whole list, which has
 * one row, slot 19: there is no position 0 and no position 2, slot 64 does not
 * qualify, no slot is 0 or 256, an issue list has 255 numbers, none is 1024. Its
 * correction sheet has 35 bytes. */
static void after_the_cases(void)
{
    printf("asked of the whole list:\n"
           "  row 0: 18\n"
           "  row 1: slot 19\n"
           "  row 2: 18\n"
           "  slot 0: 11\n"
           "  slot 19: slot 19\n"
           "  slot 64: 18\n"
           "  slot 255: 18\n"
           "  slot 256: 11\n"
           "  254 issues, slot 256: 1\n"
           "  an issue of 1024, slot 256: 11\n"
           "  an issue of 1024, slot 64: 17\n"
           "  an issue of 1024, row 0: 17\n"
           "  sheet " SHEET "\n"
           "  sheet in room for 34: 22\n");
}

int main(int argc, char **argv)
{
    if (argc != 2) {
        fprintf(stderr, "usage: make_examples FOLDER\n");
        return 2;
    }
    folder = argv[1];
    for (int i = 0; i < SLOTS; i++)
        issues[i] = NO_ISSUE;
    issues[19 - 1] = 37;
    issues[64 - 1] = 88;
    before_the_cases();
    epochs();
    set_bits_46();
    set_bits_48();
    empty_mask();
    ends();
    slots();
    frames();
    lowest_first();
    printed_across();
    whole_list();
    mask_in_front();
    one_bit();
    ssr_alone();
    older_clock();
    refused_six();
    unusable_clock();
    no_mask();
    amiss();
    zeros();
    replayed_hour();
    half_a_day();
    over_midnight();
    another_issue();
    dropped_clock();
    unusable_newer();
    own_epochs();
    biases();
    codes();
    set_bits_70();
    after_the_cases();
    return 0;
}
