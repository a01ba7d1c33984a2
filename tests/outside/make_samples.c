/* make_samples FOLDER, make_samples -f FRAMES FOLDER or make_samples -u FILE
 *
 * Writes night.log, issues.txt and night.messages: eight minutes of one
 * night's frames from PRN 60, a frame a second, as a receiver may have stored
 * them. A second mask comes in the middle; some seconds are damaged, some are
 * another satellite's, one says that the service is withdrawn, and the log
 * breaks off inside a frame.
 *
 * night.log is the frames that were sent with damage laid over them. With -f the
 * frames are those of FRAMES, as pack -f makes them of night-frames.txt; without
 * it they are encoded here, and only -u writes these, undamaged, to FILE alone.
 * Both must be the same bytes. Frames that show -f cannot print as a line have
 * none in that text and are always encoded here, as part of the damage: a type
 * that is not handled, and a wrong check under right parity.
 *
 * And night.sheet: the correction sheet of night.log and issues.txt, the list as it
 * is at the log's end.
 *
 * And night-1.log, night-2.log and night-issues.txt: a whole night of more than
 * four hours, of which one frame in 24 seconds is kept. It goes over midnight,
 * where 16 minutes are missing; a second mask comes early and a third just before
 * its end; bytes are lost in two places and too many in a third; the first log
 * ends inside a frame, and the second begins with the rest of it.
 *
 * And subframes.cnav1, the B-CNAV1 subframes of that whole night's satellites, and
 * mixed.txt, four minutes of night.log as a log of text in which D1 and B-CNAV1
 * subframes stand between the frames.
 *
 * Always the same bytes. */
#include "cnav1.h"
#include "ref.h"
#include "sheet.h"
#include "words.h"

#include <stdio.h>
#include <stdlib.h>
#include <string.h>

enum {
    PRN = 60,
    OTHER_PRN = 59,
    SECONDS = 480,
    NEW_MASK_AT = 240,  /* the second mask comes into force */
    SSR = 1,
    DAY = 86400,
    MOST = 80,          /* more satellites than any mask has */
    LATER_TYPE = 8      /* of a later edition, if of any: not handled */
};

/* Which of the two logs is made: the second of the day of its first frame, the
 * seconds at which its masks come into force, and how long, in seconds, the
 * corrections and the broadcast issue of a satellite last and a step of its
 * values takes. */
struct night {
    unsigned start, second_mask, third_mask, corr_lasts, issue_lasts, step;
};
static const struct night minutes = { 72000, NEW_MASK_AT, UINT32_MAX, 96, UINT32_MAX, 60 };
static const struct night hours = { 79200, 24 * 144, 24 * 656, 3600, 7200, 1200 };
static const struct night *night = &minutes;

static unsigned epoch_of(unsigned second) { return (night->start + second) % DAY; }

/* A fixed scatter of two numbers into 0 to range - 1. */
static unsigned scatter(unsigned a, unsigned b, unsigned range)
{
    uint32_t z = a * 0x9E3779B1u ^ b * 0x85EBCA77u ^ 0xC2B2AE3Du;
    z = (z ^ z >> 15) * 0x2C1B3C6Du;
    z = (z ^ z >> 12) * 0x297A2D39u;
    return (z ^ z >> 15) % range;
}

/* A value that wanders slowly about a middle of its own. */
static int16_t wander(unsigned slot, unsigned what, unsigned second, int spread)
{
    int middle = (int)scatter(slot, what, (unsigned)(2 * spread)) - spread;
    int slope = (int)scatter(slot, what + 50, 9) - 4;
    int noise = (int)scatter(slot * 1000 + what, second, 7) - 3;
    return (int16_t)(middle + slope * (int)second / (int)night->step + noise);
}

/* The issues and the corrections of the satellites are renewed, not all at once. */
static unsigned iodn_of(unsigned slot, unsigned second)
{
    unsigned first = slot <= 63 ? 10 + scatter(slot, 1, 60) : scatter(slot, 2, 256);
    return night->issue_lasts == UINT32_MAX ? first : first + (second + scatter(slot, 8, night->issue_lasts)) / night->issue_lasts;
}

static unsigned corr_of(unsigned slot, unsigned second)
{
    return (scatter(slot, 3, 8) + (second + scatter(slot, 4, night->corr_lasts)) / night->corr_lasts) % 8;
}

static void mask_at(unsigned second, struct mask *mask)
{
    memset(mask, 0, sizeof *mask);
    mask->iod_ssr = SSR;
    mask->iodp = second < night->second_mask ? 5 : second < night->third_mask ? 6 : 7;
    for (int c = 19; c <= 46; c++)
        mask->set[c] = c != 31;
    for (int g = 1; g <= 32; g++)
        mask->set[63 + g] = g != 4 && g != 23;
    if (second >= night->second_mask) {
        mask->set[20] = false;
        mask->set[100 + 5] = mask->set[100 + 11] = true; /* Galileo 5 and 11 */
        mask->set[137 + 7] = true;                       /* GLONASS 7 */
    }
    if (second >= night->third_mask) {
        mask->set[20] = mask->set[31] = true;
        mask->set[63 + 10] = false;
    }
}

static unsigned slots_at(unsigned second, uint8_t slots[MOST])
{
    struct mask mask;
    unsigned n = 0;
    mask_at(second, &mask);
    for (unsigned slot = 1; slot <= ASSIGNED_SLOTS; slot++)
        if (mask.set[slot])
            slots[n++] = (uint8_t)slot;
    return n;
}

static struct orbit_record orbit_of(unsigned slot, unsigned second)
{
    struct orbit_record o;
    o.slot = (uint16_t)slot;
    o.iodn = (uint16_t)iodn_of(slot, second);
    o.iod_corr = (uint8_t)corr_of(slot, second);
    o.radial = wander(slot, 10, second, 150);
    o.along = wander(slot, 11, second, 120);
    o.cross = wander(slot, 12, second, 120);
    o.ura = ref_ura(slot == 38 ? 63 : slot == 70 || slot == 88 ? 0 : 8 + scatter(slot, 5, 14));
    if (slot == 77)
        o.along = -4096; /* unusable */
    return o;
}

static struct clock_record clock_of(unsigned slot, unsigned second)
{
    struct clock_record c;
    c.slot = 0;
    c.iod_corr = (uint8_t)corr_of(slot, second);
    c.c0 = slot == 33 && second > 100 ? -16384 : wander(slot, 13, second, 1200);
    return c;
}

static void type_1(struct contents *c, unsigned second)
{
    c->kind = 1;
    mask_at(second, &c->mask);
    c->mask.epoch = epoch_of(second);
}

static unsigned next_orbit; /* the satellite whose orbit is sent next */

static void six_orbits(struct contents *c, unsigned second, unsigned count)
{
    uint8_t slots[MOST];
    unsigned n = slots_at(second, slots);
    c->orbits.epoch = epoch_of(second / 48 * 48);
    c->orbits.iod_ssr = SSR;
    c->orbits.count = (uint8_t)count;
    for (unsigned i = 0; i < count; i++, next_orbit++) {
        if (next_orbit >= n) {
            /* the round is complete: the rest of the records stay blank */
            next_orbit = 0;
            return;
        }
        c->orbits.record[i] = orbit_of(slots[next_orbit], second);
    }
}

static void type_4(struct contents *c, unsigned second, unsigned sub)
{
    uint8_t slots[MOST];
    unsigned n = slots_at(second, slots);
    struct mask mask;
    mask_at(second, &mask);
    c->kind = 4;
    c->clocks.epoch = epoch_of(second / 6 * 6);
    c->clocks.iod_ssr = SSR;
    c->clocks.iodp = mask.iodp;
    c->clocks.first = (uint16_t)sub;
    c->clocks.count = CLOCKS;
    for (unsigned i = 0; i < CLOCKS && 23 * sub + i < n; i++)
        c->clocks.record[i] = clock_of(slots[23 * sub + i], second);
}

static void type_6(struct contents *c, unsigned second, unsigned first, unsigned num_c, unsigned num_o)
{
    uint8_t slots[MOST];
    unsigned n = slots_at(second, slots);
    struct mask mask;
    mask_at(second, &mask);
    c->kind = 6;
    if (num_c > 0) {
        c->clocks.epoch = epoch_of(second / 6 * 6);
        c->clocks.iod_ssr = SSR;
        c->clocks.iodp = mask.iodp;
        c->clocks.first = (uint16_t)first;
        c->clocks.count = (uint8_t)num_c;
        for (unsigned i = 0; i < num_c && first + i <= n; i++)
            c->clocks.record[i] = clock_of(slots[first + i - 1], second);
    }
    if (num_o > 0)
        six_orbits(c, second, num_o);
}

static void type_7(struct contents *c, unsigned second, unsigned num_c, unsigned num_o)
{
    uint8_t slots[MOST];
    unsigned n = slots_at(second, slots);
    c->kind = 7;
    if (num_c > 0) {
        c->clocks.epoch = epoch_of(second / 6 * 6);
        c->clocks.iod_ssr = SSR;
        c->clocks.count = (uint8_t)num_c;
        for (unsigned i = 0; i < num_c; i++) {
            unsigned slot = slots[(second / 6 * 5 + i * 7) % n];
            bool used = false;
            for (unsigned k = 0; k < i; k++)
                used = used || c->clocks.record[k].slot == slot;
            if (used)
                continue; /* stays blank */
            c->clocks.record[i] = clock_of(slot, second);
            c->clocks.record[i].slot = (uint16_t)slot;
        }
    }
    if (num_o > 0)
        six_orbits(c, second, num_o);
}

/* The signals of a satellite that biases are sent for, by 000's table of modes: three
 * of BeiDou, two of GPS and Galileo, one of GLONASS. Some satellites have none. */
static unsigned modes_of(unsigned slot, const uint8_t **modes)
{
    static const uint8_t beidou[] = { 0, 2, 5 }, gps[] = { 1, 8 }, galileo[] = { 2, 4 }, glonass[] = { 1 };
    *modes = slot <= 63 ? beidou : slot <= 100 ? gps : slot <= 137 ? galileo : glonass;
    if (slot == 36 || slot == 70)
        return 0;
    return slot <= 63 ? sizeof beidou : slot <= 100 ? sizeof gps : slot <= 137 ? sizeof galileo : sizeof glonass;
}

static unsigned next_bias; /* the satellite whose biases are sent next */

static void type_3(struct contents *c, unsigned second)
{
    uint8_t slots[MOST];
    unsigned n = slots_at(second, slots);
    struct bias *bias = c->biases.bias;
    c->kind = 3;
    c->biases.epoch = epoch_of(second / 48 * 48);
    c->biases.iod_ssr = SSR;
    c->biases.count = 7;
    for (unsigned i = 0; i < c->biases.count; i++, next_bias++) {
        const uint8_t *modes;
        if (next_bias >= n) {
            /* the round is complete: the rest of the satellites stay blank */
            next_bias = 0;
            return;
        }
        c->biases.sat[i].slot = slots[next_bias];
        c->biases.sat[i].count = (uint8_t)modes_of(slots[next_bias], &modes);
        for (unsigned k = 0; k < c->biases.sat[i].count; k++, bias++) {
            bias->mode = modes[k];
            bias->value = wander(slots[next_bias], 20 + modes[k], second, 300);
        }
    }
}

/* The codes of all satellites. Two have orbits of unknown URA and codes that are
 * known, another the other way round; places without a satellite have code 0. */
static void type_5(struct contents *c, unsigned second, unsigned sub)
{
    uint8_t slots[MOST];
    unsigned n = slots_at(second, slots);
    struct mask mask;
    mask_at(second, &mask);
    c->kind = 5;
    c->codes.epoch = epoch_of(second / 6 * 6);
    c->codes.iod_ssr = SSR;
    c->codes.iodp = mask.iodp;
    c->codes.sub = (uint8_t)sub;
    for (unsigned i = 0; i < CODES && 70 * sub + i < n; i++) {
        unsigned slot = slots[70 * sub + i];
        c->codes.code[i] = (uint8_t)(slot == 44 ? 0 : slot == 38 ? 63 : 6 + scatter(slot, 9 + second / 96, 16));
    }
}

static void write_or_stop(const struct contents *c, uint8_t message[MESSAGE_BYTES])
{
    unsigned refusal = ref_write(c, message, MESSAGE_BYTES);
    if (refusal != 0) {
        fprintf(stderr, "make_samples: a message was refused %u\n", refusal);
        exit(1);
    }
}

/* Turns a message into one of a type that is not handled, of which only the type and
 * an epoch are made here. */
static void make_later_type(uint8_t message[MESSAGE_BYTES], unsigned second)
{
    memset(message, 0, MESSAGE_BYTES);
    ref_put_bits(message, 0, 6, LATER_TYPE);
    ref_put_bits(message, 6, 17, epoch_of(second));
    ref_put_bits(message, CHECKED_BITS, 24, ref_check(message));
}

/* Twice in 48 seconds, at 41 and 47, there is room for biases, for codes, for a type
 * that is not handled or for nothing. Codes speak of the second mask before it is sent
 * and are refused, and once there is no place for them. The last ones come so late
 * that few orbits follow them. */
static unsigned spare_type(struct contents *c, unsigned second, unsigned told)
{
    static const uint8_t types[20] = { LATER_TYPE, 63, 3, 5, 3, 63, 3, 5, 3, 5, 3, 5, 3, 63, 3, 5, LATER_TYPE, 5, 5, 3 };
    unsigned type = types[second / 48 * 2 + (second % 48 == 47)];
    c->kind = 63;
    if (type == 3)
        type_3(c, second);
    if (type == 5)
        type_5(c, told, second == 383);
    return type;
}

/* What the satellite sends in a second. */
static void sent(unsigned second, uint8_t message[MESSAGE_BYTES])
{
    struct contents c = { 0 };
    unsigned told = second, type = 0;

    /* The clocks speak of the second mask shortly before it is sent, and once
     * more of the first one after. */
    if (second >= NEW_MASK_AT - 4 && second < NEW_MASK_AT)
        told = NEW_MASK_AT;
    if (second == NEW_MASK_AT + 2)
        told = NEW_MASK_AT - 1;

    /* A new mask is sent twice in a row: the loss of one frame costs no clocks. */
    if (second % 48 == 0 || second == 1 || second == NEW_MASK_AT + 1) {
        type_1(&c, second);
    } else if (second % 6 >= 1 && second % 6 <= 3) {
        type_4(&c, told, second == 351 ? 3 : second % 6 - 1);
    } else if (second % 6 == 5) {
        switch (second / 6 % 8) {
        case 0: type_6(&c, told, 1, 20, 0); break;
        case 1: type_7(&c, told, 2, 5); break;
        case 2: type_6(&c, told, 30, 6, 4); break;
        case 3: type_7(&c, told, 15, 0); break;
        case 4: type_6(&c, told, second == 413 ? 58 : 52, 4, 4); break;
        case 5: type_7(&c, told, 0, 6); break;
        default: type = spare_type(&c, second, told); break;
        }
    } else {
        c.kind = 2;
        six_orbits(&c, second, ORBITS);
    }
    write_or_stop(&c, message);
    if (type == LATER_TYPE)
        make_later_type(message, second);
}

static void flip(uint8_t *bytes, unsigned bit) { bytes[bit / 8] ^= (uint8_t)(0x80 >> bit % 8); }

static bool is_later_type(const uint8_t message[MESSAGE_BYTES]) { return ref_get_bits(message, 0, 6) == LATER_TYPE; }

/* The frame of it, by the encoder here. Some seconds are another satellite's. */
static void encoded(unsigned second, const uint8_t message[MESSAGE_BYTES], uint8_t frame[FRAME_BYTES])
{
    ref_encode(message, second >= 210 && second < 216 ? OTHER_PRN : PRN, 0, frame);
}

/* What the receiver stored of it: damage is laid over the frame. */
static void received(unsigned second, const uint8_t message[MESSAGE_BYTES], uint8_t frame[FRAME_BYTES])
{
    uint8_t changed[MESSAGE_BYTES];

    memcpy(changed, message, MESSAGE_BYTES);
    if (second == 365) { /* a wrong check under right parity */
        flip(changed, 100);
        encoded(second, changed, frame);
    }
    if (second == 301) /* the service is withdrawn */
        flip(frame, 22);
    if (second >= 130 && second < 139) /* a burst of noise */
        for (unsigned i = 0; i < 1 + scatter(second, 6, 12); i++)
            flip(frame, 28 + scatter(second, 20 + i, 972));
    if (second == 75 || second == 402) /* single wrong symbols */
        flip(frame, 28 + scatter(second, 7, 972));
    if (second == 187 || second == 188) /* lock lost */
        for (unsigned i = 0; i < FRAME_BYTES; i++)
            frame[i] = (uint8_t)scatter(second, 100 + i, 256);
}

static void stop(const char *why)
{
    fprintf(stderr, "make_samples: %s\n", why);
    exit(1);
}

static FILE *open_file(const char *folder, const char *name, const char *mode)
{
    char path[4096];
    FILE *out;
    snprintf(path, sizeof path, "%s/%s", folder, name);
    out = fopen(path, mode);
    if (out == NULL) {
        fprintf(stderr, "make_samples: %s: cannot be opened\n", path);
        exit(1);
    }
    return out;
}

static FILE *create(const char *folder, const char *name) { return open_file(folder, name, "wb"); }

static void finish(FILE *out)
{
    if (fclose(out) != 0)
        stop("a file could not be written");
}

/* The log, with the frames of `packed` if it is not NULL. */
static void make_log(const char *folder, FILE *packed)
{
    FILE *out = create(folder, "night.log");
    uint8_t message[MESSAGE_BYTES], frame[FRAME_BYTES];
    next_orbit = next_bias = 0;
    for (unsigned second = 0; second <= SECONDS; second++) {
        sent(second, message);
        if (packed == NULL || is_later_type(message))
            encoded(second, message, frame);
        else if (fread(frame, 1, FRAME_BYTES, packed) != FRAME_BYTES)
            stop("too few frames");
        received(second, message, frame);
        fwrite(frame, 1, second < SECONDS ? FRAME_BYTES : 57, out);
    }
    if (packed != NULL && getc(packed) != EOF)
        stop("too many frames");
    finish(out);
}

/* The frames of the log that have a line, undamaged, by the encoder here. */
static void make_undamaged(const char *path)
{
    FILE *out = fopen(path, "wb");
    uint8_t message[MESSAGE_BYTES], frame[FRAME_BYTES];
    if (out == NULL)
        stop("the file of frames cannot be written");
    next_orbit = next_bias = 0;
    for (unsigned second = 0; second <= SECONDS; second++) {
        sent(second, message);
        encoded(second, message, frame);
        if (!is_later_type(message))
            fwrite(frame, 1, FRAME_BYTES, out);
    }
    finish(out);
}

/* ---- the whole night: numbers of frames, 24 seconds apart ---- */

enum {
    APART = 24,
    FRAMES = 660,             /* then the beginning of one more */
    GAP_FROM = 280, GAP_TO = 320,
    ROTATED = 400,            /* the first log ends inside it */
    TORN = 470,               /* its end and the beginning of the next are lost */
    BYTE_LOST = 520,
    TOO_MANY = 200,           /* three bytes before it */
    LAST_CLOCKS = FRAMES - 1  /* damaged: the last places get no clock under the third mask */
};

/* What the satellite sends. Of slot 31 there is never an orbit. */
static void sent_in_hours(unsigned frame, uint8_t message[MESSAGE_BYTES])
{
    struct contents c = { 0 };
    unsigned second = APART * frame, turn = frame % 16;
    /* once the clocks still speak of the first mask */
    unsigned told = frame == hours.second_mask / APART + 1 ? hours.second_mask - 1 : second;

    switch (turn) {
    case 0: type_1(&c, second); break;
    case 1:
    case 2:
    case 3: type_4(&c, told, turn - 1); break;
    case 7: type_6(&c, second, 1 + frame / 16 * 5 % 50, 4, 4); break;
    case 9:
    case 10:
    case 11: type_4(&c, second, turn - 9); break;
    case 13:
        c.kind = 63;
        if (frame / 16 % 3 == 0)
            type_3(&c, second);
        if (frame / 16 % 3 == 2)
            type_5(&c, second, 0);
        break;
    case 15: type_7(&c, second, 8, 2); break;
    default:
        c.kind = 2;
        six_orbits(&c, second, ORBITS);
        break;
    }
    for (unsigned i = 0; i < c.orbits.count || (c.kind == 2 && i < ORBITS); i++)
        if (c.orbits.record[i].slot == 31)
            c.orbits.record[i].slot = 0;
    if (frame == LAST_CLOCKS / 16 * 16 - 1)
        c.orbits.iod_ssr = SSR + 1; /* the service is about to begin anew */
    write_or_stop(&c, message);
    if (frame == 13 || frame == 13 + 32)
        make_later_type(message, second);
}

/* What the receiver stored of it. */
static void received_in_hours(unsigned number, const uint8_t message[MESSAGE_BYTES], uint8_t frame[FRAME_BYTES])
{
    uint8_t changed[MESSAGE_BYTES];

    memcpy(changed, message, MESSAGE_BYTES);
    if (number == 365)
        flip(changed, 100); /* a wrong check under right parity */
    ref_encode(changed, number == 230 || number == 231 ? OTHER_PRN : PRN, number == 350 ? 0x20 : 0, frame);
    if (number >= 100 && number < 105) /* a burst of noise */
        for (unsigned i = 0; i < 1 + scatter(number, 6, 12); i++)
            flip(frame, 28 + scatter(number, 20 + i, 972));
    if (number == 60 || number == LAST_CLOCKS) /* single wrong symbols */
        flip(frame, 28 + scatter(number, 7, 972));
    if (number == 550) /* lock lost */
        for (unsigned i = 0; i < FRAME_BYTES; i++)
            frame[i] = (uint8_t)scatter(number, 100 + i, 256);
}

static void make_hours(const char *folder)
{
    FILE *out = create(folder, "night-1.log");
    uint8_t message[MESSAGE_BYTES], frame[FRAME_BYTES];

    night = &hours;
    next_orbit = next_bias = 0;
    for (unsigned number = 0; number <= FRAMES; number++) {
        unsigned from = 0, to = FRAME_BYTES;
        sent_in_hours(number, message);
        received_in_hours(number, message, frame);
        if (number >= GAP_FROM && number < GAP_TO)
            continue;
        if (number == TORN)
            to = 80;
        if (number == TORN + 1)
            from = 30;
        if (number == BYTE_LOST)
            to = FRAME_BYTES - 1;
        if (number == FRAMES)
            to = 57;
        if (number == TOO_MANY)
            fwrite("\x00\xEB\x90", 1, 3, out);
        if (number == ROTATED) {
            from = 61;
            fwrite(frame, 1, from, out);
            finish(out);
            out = create(folder, "night-2.log");
        }
        fwrite(frame + from, 1, to - from, out);
    }
    finish(out);
    night = &minutes;
}

static void put_message(FILE *out, const struct contents *c)
{
    uint8_t message[MESSAGE_BYTES];
    write_or_stop(c, message);
    fwrite(message, 1, MESSAGE_BYTES, out);
}

/* Type 3: no satellite; a blank alone; 31 of them, of which some are blank and few
 * have biases; blanks between satellites and the ends of each range; one that ends at
 * bit 462; the most biases that there can be. */
static void put_biases(FILE *out)
{
    struct contents c = { .kind = 3 };
    put_message(out, &c);
    c.biases.count = 1;
    put_message(out, &c);
    c.biases = (struct bias_part){ .epoch = 86399, .iod_ssr = 3, .count = BIAS_SATS };
    for (unsigned i = 0; i < BIAS_SATS; i++)
        c.biases.sat[i].slot = (uint16_t)(i % 5 == 3 ? 0 : 255 - i);
    c.biases.sat[30].count = 1;
    c.biases.bias[0] = (struct bias){ 15, -1 };
    put_message(out, &c);
    c.biases = (struct bias_part){ .count = 5 };
    c.biases.sat[1] = (struct bias_sat){ 255, 3 };
    c.biases.sat[2] = (struct bias_sat){ 1, 0 };
    c.biases.sat[4] = (struct bias_sat){ 174, 1 };
    c.biases.bias[0] = (struct bias){ 0, -2048 };
    c.biases.bias[1] = (struct bias){ 15, 2047 };
    c.biases.bias[2] = (struct bias){ 15, 0 };
    c.biases.bias[3] = (struct bias){ 7, -2047 };
    put_message(out, &c);
    for (int which = 0; which < 2; which++) {
        unsigned sats = which == 0 ? 12 : 2;
        c.biases = (struct bias_part){ .count = (uint8_t)sats };
        for (unsigned i = 0; i < sats; i++)
            c.biases.sat[i] = (struct bias_sat){ (uint16_t)(19 + i), (uint8_t)(which == 0 ? 1 + (i < 5) : 15 - 5 * i) };
        for (unsigned i = 0; i < BIASES; i++)
            c.biases.bias[i] = (struct bias){ (uint8_t)(i % 16), (int16_t)(100 * (int)i - 1200) };
        put_message(out, &c);
    }
}

static void make_messages(const char *folder)
{
    FILE *out = create(folder, "night.messages");
    uint8_t message[MESSAGE_BYTES];
    struct contents c;

    /* The messages of the first 48 seconds and of as many after the second
     * mask, save those that cannot be read. */
    next_orbit = next_bias = 0;
    for (unsigned second = 0; second < NEW_MASK_AT + 48; second++) {
        sent(second, message);
        if ((second < 48 || second >= NEW_MASK_AT) && ref_read(message, MESSAGE_BYTES, &c) == 0)
            fwrite(message, 1, MESSAGE_BYTES, out);
    }
    /* And the rarer forms: an empty mask, a full one, parts left out, blanks
     * in the middle, the ends of each range. */
    memset(&c, 0, sizeof c);
    c.kind = 1;
    put_message(out, &c);
    c.mask.epoch = 86399;
    c.mask.iod_ssr = 3;
    c.mask.iodp = 15;
    for (int slot = 1; slot <= ASSIGNED_SLOTS; slot++)
        c.mask.set[slot] = true;
    put_message(out, &c);
    memset(&c, 0, sizeof c);
    c.kind = 2;
    put_message(out, &c);
    c.orbits.epoch = 86399;
    c.orbits.iod_ssr = 3;
    c.orbits.record[1] = (struct orbit_record){ 255, 1023, 7, 16383, 4095, 4095, ref_ura(62) };
    c.orbits.record[3] = (struct orbit_record){ 1, 0, 0, -16384, -4096, -4096, ref_ura(0) };
    c.orbits.record[4] = (struct orbit_record){ 174, 1, 1, -16383, -4095, -4095, ref_ura(63) };
    put_message(out, &c);
    memset(&c, 0, sizeof c);
    c.kind = 4;
    c.clocks.first = 31;
    c.clocks.record[0].c0 = -16384;
    c.clocks.record[22] = (struct clock_record){ 0, 7, 16383 };
    put_message(out, &c);
    put_biases(out);
    memset(&c, 0, sizeof c);
    c.kind = 5;
    put_message(out, &c);
    c.codes.epoch = 86399;
    c.codes.iod_ssr = 3;
    c.codes.iodp = 15;
    c.codes.sub = 7;
    for (unsigned i = 0; i < CODES; i++)
        c.codes.code[i] = (uint8_t)(63 - i % 64);
    put_message(out, &c);
    for (uint8_t kind = 6; kind <= 7; kind++) {
        memset(&c, 0, sizeof c);
        c.kind = kind;
        put_message(out, &c);
        c.clocks.count = kind == 6 ? 22 : 15;
        c.clocks.first = 255;
        put_message(out, &c);
        c.clocks.count = 2;
        c.clocks.record[1] = (struct clock_record){ 255, 7, -1 };
        c.orbits.count = 5;
        c.orbits.record[4] = (struct orbit_record){ 255, 512, 3, -1, 1, -1, ref_ura(1) };
        put_message(out, &c);
        c.clocks.count = 0;
        c.orbits.count = 6;
        put_message(out, &c);
    }
    memset(&c, 0, sizeof c);
    c.kind = 63;
    put_message(out, &c);
    finish(out);
}

/* The broadcast issue of a satellite that is known at a second. */
static unsigned issue_known(unsigned slot, unsigned second)
{
    unsigned issue = iodn_of(slot, second);
    return slot == 41 || slot == 66 ? (issue + 1023) % 1024 : issue; /* still the older one */
}

/* The issues as of a second of a night, as a list too. */
static void make_issues(const char *folder, const char *name, const struct night *of, unsigned second, uint16_t issues[SLOTS])
{
    FILE *out = create(folder, name);
    static const char letters[] = "?CGER";
    uint8_t slots[MOST];
    unsigned n;

    for (int i = 0; i < SLOTS; i++)
        issues[i] = NO_ISSUE;
    night = of;
    n = slots_at(second, slots);
    fprintf(out, "# Issues of the broadcast messages, as received that night.\n");
    fprintf(out, "# BeiDou: CNAV1 IODC. GPS: LNAV IODC. Galileo: I/NAV IODNav. GLONASS: L1OCd Tb.\n\n");
    for (unsigned i = 0; i < n; i++) {
        unsigned slot = slots[i];
        unsigned system = slot <= 63 ? 1 : slot <= 100 ? 2 : slot <= 137 ? 3 : 4;
        unsigned number = slot - (unsigned[]){ 0, 0, 63, 100, 137 }[system];
        unsigned issue = issue_known(slot, second);
        if (slot == 25 || slot == 81 || slot == 90) /* not received */
            continue;
        if (slot == 64)
            fprintf(out, "\n# GPS 18 and 27 were below the horizon.\n");
        fprintf(out, "%c%02u %u\n", letters[system], number, issue);
        issues[slot - 1] = (uint16_t)issue;
    }
    finish(out);
    night = &minutes;
}

/* ---- subframes, in text ---- */

enum { WEEK = 900, SUNDAY = 0, MIXED_FROM = 192, MIXED_TO = 432, NEVER_HEARD = 25, MEDIUM_ORBIT = 3 };

/* The words before it, and bytes in hexadecimal; the line is not ended. */
static void put_hex(FILE *out, const char *words, const uint8_t *bytes, size_t n)
{
    fprintf(out, "%s ", words);
    for (size_t i = 0; i < n; i++)
        fprintf(out, "%02x", bytes[i]);
}

/* A subframe 2 of B-CNAV1 with an issue, of an hour of the week. Ephemeris and clock
 * are any bits. */
static void cnav1_of(unsigned prn, unsigned iodc, unsigned hour, uint8_t subframe[CNAV1_BYTES])
{
    int64_t fields[CNAV1_FIELDS];
    for (unsigned f = 0; f < CNAV1_FIELDS; f++)
        fields[f] = (int64_t)scatter(64 * prn + f, iodc, 1 << 20) << 20 | scatter(64 * prn + f, 1024 + iodc, 1 << 20);
    fields[0] = WEEK;
    fields[CNAV1_HOW] = hour;
    fields[CNAV1_IODC] = iodc;
    fields[3] = iodc % 256;  /* IODE */
    fields[4] = 12 * hour;   /* toe, in units of 300 s */
    fields[5] = MEDIUM_ORBIT;
    fields[23] = 12 * hour;  /* toc */
    fields[30] = 0;          /* reserved */
    ref_write_cnav1(subframe, fields);
}

static void put_cnav1(FILE *out, unsigned prn, const uint8_t *subframe, size_t n)
{
    char words[8];
    snprintf(words, sizeof words, "C%02u", prn);
    put_hex(out, words, subframe, n);
    fprintf(out, "\n");
}

/* The subframes of the whole night: some satellites are heard before their issue is
 * renewed, and of three there is one more that is refused and would change the list. */
static void make_subframes(const char *folder)
{
    static const unsigned early[] = { 22, 33, 37, 44, 19 };
    FILE *out = create(folder, "subframes.cnav1");
    uint8_t subframe[CNAV1_BYTES];

    night = &hours;
    fprintf(out, "# Subframes 2 of B-CNAV1, one a line: the satellite, and its 75 bytes in hexadecimal.\n");
    for (size_t i = 0; i < sizeof early / sizeof early[0]; i++) {
        cnav1_of(early[i], issue_known(early[i], APART * FRAMES) - 1, SUNDAY + 22, subframe);
        put_cnav1(out, early[i], subframe, CNAV1_BYTES);
    }
    fprintf(out, "\n# After midnight.\n");
    for (unsigned prn = 50; prn >= 19; prn--) {
        if (prn == 47 || prn == 49)
            continue;
        cnav1_of(prn, issue_known(prn, APART * FRAMES), SUNDAY + 26, subframe);
        put_cnav1(out, prn, subframe, CNAV1_BYTES);
    }
    fprintf(out, "\n# Refused: some bits are wrong; the end is missing; HOW is above 167.\n");
    cnav1_of(29, 555, SUNDAY + 26, subframe);
    flip(subframe, 21);
    flip(subframe, 300);
    put_cnav1(out, 29, subframe, CNAV1_BYTES);
    cnav1_of(35, 556, SUNDAY + 26, subframe);
    put_cnav1(out, 35, subframe, 60);
    cnav1_of(24, 557, 168, subframe);
    put_cnav1(out, 24, subframe, CNAV1_BYTES);
    finish(out);
    night = &minutes;
}

/* A subframe of D1, of a second of the sample of eight minutes. */
static void d1_of(unsigned prn, unsigned frame, unsigned second, uint8_t subframe[SUBFRAME_BYTES])
{
    uint8_t data[SUBFRAME_DATA_BYTES];
    for (unsigned i = 0; i < sizeof data; i++)
        data[i] = (uint8_t)scatter(prn, 32 * second + i, 256);
    ref_put_bits(data, 0, 11, 0x712);
    ref_put_bits(data, 11, 4, 0);
    ref_put_bits(data, 15, 3, frame);
    ref_put_bits(data, 18, 20, epoch_of(second / 6 * 6));
    ref_code_subframe(subframe, data);
}

/* The line of a D1 subframe. One in five has a wrong bit in its last word, which is
 * mended; three are refused. */
static void put_d1(FILE *out, unsigned number, unsigned second)
{
    unsigned prn = 6 + number * 5 % 41;
    uint8_t subframe[SUBFRAME_BYTES];
    char words[16];

    d1_of(prn, number == 31 ? 6 : 1 + second / 6 % 5, second, subframe);
    if (number % 5 == 2)
        flip(subframe, 270 + number % 30);
    if (number == 60)
        flip(subframe, 4); /* of the preamble */
    snprintf(words, sizeof words, "D1 C%02u", prn);
    put_hex(out, words, subframe, number == 47 ? SUBFRAME_BYTES - 1 : SUBFRAME_BYTES);
    fprintf(out, "\n");
}

/* The line of a B-CNAV1 subframe. In the first round some satellites have an older
 * issue; in the second three are refused, which would change the list. */
static void put_mixed_cnav1(FILE *out, unsigned number)
{
    unsigned prn = 19 + number % 28;
    unsigned issue = issue_known(prn, MIXED_TO);
    uint8_t subframe[CNAV1_BYTES];

    if (prn == NEVER_HEARD)
        prn = 48;
    if (number < 28 && number % 6 == 1)
        issue--;
    cnav1_of(prn, number >= 40 && number < 43 ? 1000 : issue, number == 42 ? 168 : 3 * 24 + 20, subframe);
    if (number == 40)
        flip(subframe, 599);
    fprintf(out, "CNAV1 ");
    put_cnav1(out, prn, subframe, number == 41 ? CNAV1_BYTES - 10 : CNAV1_BYTES);
}

/* What a torn line looks like: an odd number of digits, an even one, the end of a line
 * alone, two lines in one, a satellite that there is not, a digit that is none. */
static void put_torn(FILE *out, unsigned second, const uint8_t frame[FRAME_BYTES])
{
    switch (second) {
    case 215:
        put_hex(out, "B2B", frame, 70);
        fprintf(out, "e\n");
        break;
    case 257:
        put_hex(out, "B2B", frame, 70);
        fprintf(out, "\n");
        break;
    case 290:
        put_hex(out, "", frame + 100, 25);
        fprintf(out, "\n");
        break;
    case 325:
        put_hex(out, "B2B", frame, FRAME_BYTES);
        put_hex(out, "D1 C33", frame, SUBFRAME_BYTES);
        fprintf(out, "\n");
        break;
    case 350:
        put_hex(out, "CNAV1 C64", frame, CNAV1_BYTES);
        fprintf(out, "\n");
        break;
    case 388:
        put_hex(out, "D1 C2 ", frame, SUBFRAME_BYTES);
        fprintf(out, "\n");
        break;
    case 410:
        put_hex(out, "B2B", frame, 100);
        fprintf(out, "..\n");
        break;
    default: break;
    }
}

/* Four minutes of night.log, which stands in the folder, as a mixed log. */
static void make_mixed(const char *folder)
{
    FILE *out = create(folder, "mixed.txt"), *log;
    uint8_t frame[FRAME_BYTES];
    char path[4096];
    unsigned cnav1 = 0, d1 = 0;

    snprintf(path, sizeof path, "%s/night.log", folder);
    log = fopen(path, "rb");
    if (log == NULL || fseek(log, FRAME_BYTES * MIXED_FROM, SEEK_SET) != 0)
        stop("night.log cannot be read");
    fprintf(out, "# What one receiver heard, a record a line: frames of PPP-B2b, subframes 2 of B-CNAV1, subframes of D1.\n");
    for (unsigned second = MIXED_FROM; second < MIXED_TO; second++) {
        if (fread(frame, 1, FRAME_BYTES, log) != FRAME_BYTES)
            stop("night.log is too short");
        if (second % 60 == 0)
            fprintf(out, "\n# %02u:%02u\n", epoch_of(second) / 3600, epoch_of(second) / 60 % 60);
        put_hex(out, "B2B", frame, FRAME_BYTES);
        fprintf(out, second % 100 == 37 ? "   # kept\n" : "\n");
        if (second % 3 == 1)
            put_d1(out, d1++, second);
        if (second % 5 == 3)
            put_mixed_cnav1(out, cnav1++);
        put_torn(out, second, frame);
    }
    fclose(log);
    finish(out);
}

/* The correction sheet of night.log, of which no piece is torn. */
static void make_sheet(const char *folder, const uint16_t issues[SLOTS])
{
    FILE *in = open_file(folder, "night.log", "rb"), *out = create(folder, "night.sheet");
    struct ledger ledger;
    uint8_t frame[FRAME_BYTES], sheet[SHEET_BYTES];
    size_t n;

    if (ref_open(&ledger, PRN) != 0)
        stop("the ledger cannot be opened");
    while ((n = fread(frame, 1, FRAME_BYTES, in)) > 0)
        ref_take(&ledger, frame, n);
    fclose(in);
    if (ref_write_sheet(&ledger, issues, SLOTS, sheet, sizeof sheet, &n) != 0)
        stop("the sheet was refused");
    fwrite(sheet, 1, n, out);
    finish(out);
}

int main(int argc, char **argv)
{
    const char *folder = argc > 1 ? argv[argc - 1] : "";
    FILE *packed = NULL;
    uint16_t issues[SLOTS];

    if (argc == 3 && strcmp(argv[1], "-u") == 0) {
        make_undamaged(folder);
        return 0;
    }
    if (argc != 2 && !(argc == 4 && strcmp(argv[1], "-f") == 0)) {
        fprintf(stderr, "usage: make_samples FOLDER, make_samples -f FRAMES FOLDER or make_samples -u FILE\n");
        return 2;
    }
    if (argc == 4 && (packed = fopen(argv[2], "rb")) == NULL)
        stop("the file of frames cannot be read");
    make_log(folder, packed);
    make_messages(folder);
    make_issues(folder, "issues.txt", &minutes, SECONDS, issues);
    make_sheet(folder, issues);
    make_hours(folder);
    make_issues(folder, "night-issues.txt", &hours, APART * FRAMES, issues);
    make_subframes(folder);
    make_mixed(folder);
    return 0;
}
