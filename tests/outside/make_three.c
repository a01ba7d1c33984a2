/* make_three FOLDER: writes three.log and three-issues.txt, eight minutes of frames as
 * a receiver stores them that hears three correction satellites at once: 59, 60 and
 * 61 in turn, six seconds between two frames of one. Each has a mask, an IOD SSR and
 * values of its own. 60 sends a second mask in the middle; 61 says at the end that
 * its service is withdrawn. Some frames are damaged, some are of other satellites,
 * one of PRN 0; bytes are lost and too many are there. Always the same bytes. */
#include "ref.h"

#include <stdio.h>
#include <stdlib.h>
#include <string.h>

enum { HEARD = 3, ROUNDS = 80, APART = 6, DAY = 86400, SECOND_MASK = 40, WITHDRAWN = 68, GPS = 63 };

/* PRN, IOD SSR and IODP, and the second of the day of its first frame. */
static const struct satellite {
    unsigned prn, iod_ssr, iodp, start;
} heard[HEARD] = { { 59, 1, 5, 40002 }, { 60, 2, 9, 40004 }, { 61, 0, 3, DAY - 200 } };

/* A fixed scatter of two numbers into 0 to range - 1. */
static unsigned scatter(unsigned a, unsigned b, unsigned range)
{
    uint32_t z = a * 0x9E3779B1u ^ b * 0x85EBCA77u ^ 0x27D4EB2Fu;
    z = (z ^ z >> 15) * 0x2C1B3C6Du;
    z = (z ^ z >> 12) * 0x297A2D39u;
    return (z ^ z >> 15) % range;
}

static unsigned epoch_of(const struct satellite *s, unsigned round) { return (s->start + APART * round) % DAY; }
static unsigned iodn_of(unsigned slot) { return slot <= GPS ? 10 + scatter(slot, 1, 60) : scatter(slot, 2, 256); }

/* The corrections of a satellite are renewed, not all at once. */
static unsigned corr_of(unsigned slot, unsigned round) { return (slot + (round + scatter(slot, 3, 48)) / 48) % 8; }

static void mask_of(const struct satellite *s, unsigned round, struct mask *mask)
{
    bool second = s->prn == 60 && round >= SECOND_MASK;
    memset(mask, 0, sizeof *mask);
    mask->epoch = epoch_of(s, round);
    mask->iod_ssr = (uint8_t)s->iod_ssr;
    mask->iodp = (uint8_t)(s->iodp + second);
    for (unsigned slot = 19; slot <= 46; slot++)
        mask->set[slot] = s->prn == 59 || (s->prn == 60 && slot <= 34);
    for (unsigned slot = GPS + 1; slot <= GPS + 30; slot++)
        mask->set[slot] = s->prn == 61 || (s->prn == 60 && slot <= GPS + 10);
    if (second)
        mask->set[19] = !(mask->set[35] = true);
}

/* The slots of the mask in rising order; how many there are is answered. */
static unsigned slots_of(const struct satellite *s, unsigned round, uint8_t slots[SLOTS])
{
    struct mask mask;
    unsigned n = 0;
    mask_of(s, round, &mask);
    for (unsigned slot = 1; slot <= SLOTS; slot++)
        if (mask.set[slot])
            slots[n++] = (uint8_t)slot;
    return n;
}

static int16_t value_of(const struct satellite *s, unsigned slot, unsigned what, int spread)
{
    return (int16_t)((int)scatter(256 * s->prn + slot, what, (unsigned)(2 * spread)) - spread);
}

static void clocks(struct contents *c, const struct satellite *s, unsigned round, unsigned first, unsigned count)
{
    uint8_t slots[SLOTS];
    unsigned n = slots_of(s, round, slots);
    struct mask mask;
    mask_of(s, round, &mask);
    c->clocks = (struct clock_part){ .epoch = epoch_of(s, round), .iod_ssr = mask.iod_ssr, .count = (uint8_t)count };
    c->clocks.iodp = c->kind == 7 ? 0 : mask.iodp;
    c->clocks.first = (uint16_t)(c->kind == 4 ? first / CLOCKS : c->kind == 6 ? first + 1 : 0);
    for (unsigned i = 0; i < count && first + i < n; i++) {
        unsigned slot = slots[first + i];
        c->clocks.record[i].slot = (uint16_t)(c->kind == 7 ? slot : 0);
        c->clocks.record[i].iod_corr = (uint8_t)corr_of(slot, round);
        c->clocks.record[i].c0 = slot == 28 ? -16384 : value_of(s, slot, round, 900);
    }
}

static void orbits(struct contents *c, const struct satellite *s, unsigned round, unsigned first, unsigned count)
{
    uint8_t slots[SLOTS];
    unsigned n = slots_of(s, round, slots);
    c->orbits = (struct orbit_part){ .epoch = epoch_of(s, round), .iod_ssr = (uint8_t)s->iod_ssr, .count = (uint8_t)count };
    for (unsigned i = 0; i < count && first + i < n; i++) {
        unsigned slot = slots[first + i];
        c->orbits.record[i] = (struct orbit_record){
            (uint16_t)slot, (uint16_t)iodn_of(slot), (uint8_t)corr_of(slot, round), value_of(s, slot, 300 + round, 150),
            value_of(s, slot, 400 + round, 120), value_of(s, slot, 500 + round, 120), ref_ura(slot == 70 ? 0 : 8 + slot % 20)
        };
    }
}

/* What a satellite sends in a round: a mask, then clocks and orbits, of which the
 * last two are now and then of types 6 and 7, and a null message. */
static void sent(const struct satellite *s, unsigned round, uint8_t message[MESSAGE_BYTES])
{
    struct contents c = { 0 };
    unsigned turn = round % 8, lap = round / 8;

    if (turn == 0) {
        c.kind = 1;
        mask_of(s, round, &c.mask);
    } else if (turn <= 2) {
        c.kind = 4;
        clocks(&c, s, round, CLOCKS * (turn - 1), CLOCKS);
        if (s->prn == 59 && round == 50)
            c.clocks.first = 2; /* no satellite has that place */
    } else if (turn == 7 && lap % 3 == 1) {
        c.kind = 7;
        clocks(&c, s, round, 3 * lap % 20, 4);
        orbits(&c, s, round, 24, 4);
    } else if (turn == 7 && lap % 3 == 2) {
        c.kind = 6;
        clocks(&c, s, round, s->prn == 61 && lap == 5 ? 28 : 20, 4); /* once the last places are none */
        orbits(&c, s, round, 24, 4);
    } else if (turn == 6 && lap == 7) {
        c.kind = 63;
    } else {
        c.kind = 2;
        orbits(&c, s, round, ORBITS * (turn - 3), ORBITS);
    }
    if (ref_write(&c, message, MESSAGE_BYTES) != 0) {
        fprintf(stderr, "make_three: a message was refused\n");
        exit(1);
    }
}

static void flip(uint8_t *bytes, unsigned bit) { bytes[bit / 8] ^= (uint8_t)(0x80 >> bit % 8); }

/* What the receiver stored of it. */
static void received(const struct satellite *s, unsigned round, uint8_t message[MESSAGE_BYTES], uint8_t frame[FRAME_BYTES])
{
    unsigned prn = s->prn, flags = prn == 61 && round >= WITHDRAWN ? 0x20 : 0;

    if (prn == 60 && round == 12)
        flip(message, 90); /* a wrong check under right parity */
    if (round == 25 || round == 26)
        prn = prn == 59 ? 1 : prn == 60 ? 62 : 0; /* other satellites, and none */
    ref_encode(message, prn, flags, frame);
    if (round >= 16 && round < 19) /* a burst of noise */
        for (unsigned i = 0; i < 1 + scatter(prn, round, 9); i++)
            flip(frame, 28 + scatter(100 * prn + round, i, 972));
    if (prn == 61 && round == 33) /* one wrong symbol */
        flip(frame, 28 + 601);
    if (prn == 59 && round == 55) /* lock lost: all but the sync */
        for (unsigned i = 2; i < FRAME_BYTES; i++)
            frame[i] = (uint8_t)scatter(round, 700 + i, 256);
    if (prn == 60 && round == 55) /* the sync too, by chance not the PRN */
        for (unsigned i = 0; i < FRAME_BYTES; i++)
            frame[i] = i == 2 ? frame[i] : (uint8_t)scatter(round, 900 + i, 256);
}

static FILE *create(const char *folder, const char *name)
{
    char path[4096];
    FILE *out;
    snprintf(path, sizeof path, "%s/%s", folder, name);
    out = fopen(path, "wb");
    if (out == NULL) {
        fprintf(stderr, "make_three: %s: cannot be written\n", path);
        exit(1);
    }
    return out;
}

static void finish(FILE *out)
{
    if (fclose(out) != 0) {
        fprintf(stderr, "make_three: a file could not be written\n");
        exit(1);
    }
}

static void make_log(const char *folder)
{
    FILE *out = create(folder, "three.log");
    uint8_t message[MESSAGE_BYTES], frame[FRAME_BYTES];

    for (unsigned round = 0; round < ROUNDS; round++)
        for (const struct satellite *s = heard; s < heard + HEARD; s++) {
            unsigned from = 0, to = FRAME_BYTES;
            if (round == 0 && s->prn == 60)
                continue; /* not heard yet: its first clocks come before its mask */
            sent(s, round, message);
            received(s, round, message, frame);
            if (round == 22 && s->prn == 59)
                from = 40; /* the end of a frame alone */
            if (round == 44 && s->prn == 61)
                to = FRAME_BYTES - 1; /* a byte is lost */
            if (round == 60 && s->prn == 60)
                fwrite("\x90\xEB\x90", 1, 3, out);
            if (round == ROUNDS - 1 && s->prn == 61)
                to = 90;
            fwrite(frame + from, 1, to - from, out);
        }
    finish(out);
}

static void make_issues(const char *folder)
{
    FILE *out = create(folder, "three-issues.txt");
    fprintf(out, "# Issues of the broadcast messages: BeiDou CNAV1 IODC, GPS LNAV IODC.\n");
    for (unsigned slot = 19; slot <= 46; slot++)
        if (slot != 40) /* not received */
            fprintf(out, "C%02u %u\n", slot, iodn_of(slot) + (slot == 22)); /* C22 has a new one */
    for (unsigned slot = GPS + 1; slot <= GPS + 30; slot++)
        fprintf(out, "G%02u %u\n", slot - GPS, iodn_of(slot));
    finish(out);
}

int main(int argc, char **argv)
{
    if (argc != 2) {
        fprintf(stderr, "usage: make_three FOLDER\n");
        return 2;
    }
    make_log(argv[1]);
    make_issues(argv[1]);
    return 0;
}
