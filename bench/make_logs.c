/* make_logs FOLDER: writes the logs that are measured. base.log is one mask of
 * 57 satellites; type-N.log is that mask and then FRAMES good frames of type N,
 * with as many records as the type can hold; type-5.log has orbits of all satellites
 * before the codes, which orbits.log has alone; mixed.log is that mask and then
 * MIXED good frames as a night has them; bad-parity.log is mixed.log with one bit
 * turned in each frame after the mask. Always the same bytes. */
#include "ref.h"

#include <stdio.h>
#include <stdlib.h>
#include <string.h>

enum { PRN = 60, FRAMES = 500, MIXED = 4 * FRAMES, SATELLITES = 57 };

static uint32_t state = 1;

static unsigned below(unsigned n)
{
    state = state * 1664525u + 1013904223u;
    return (unsigned)((uint64_t)state * n >> 32);
}

static void mask(struct contents *c, unsigned step)
{
    c->kind = 1;
    c->mask.epoch = 3600 + step;
    c->mask.iod_ssr = 1;
    c->mask.iodp = (uint8_t)(5 + step / 8 % 2); /* changes with every eighth */
    for (int slot = 19; slot <= 45; slot++)
        c->mask.set[slot] = true;
    for (int slot = 64; slot <= 93; slot++)
        c->mask.set[slot] = true;
}

static void orbits(struct orbit_part *part, unsigned count, unsigned step)
{
    part->epoch = 3600 + step;
    part->iod_ssr = 1;
    part->count = (uint8_t)count;
    for (unsigned i = 0; i < count; i++) {
        struct orbit_record *o = &part->record[i];
        o->slot = (uint16_t)(19 + (step * 7 + i * 3) % 75);
        o->iodn = (uint16_t)below(1024);
        o->iod_corr = (uint8_t)below(8);
        o->radial = (int16_t)((int)below(2000) - 1000);
        o->along = (int16_t)((int)below(2000) - 1000);
        o->cross = (int16_t)((int)below(2000) - 1000);
        o->ura = ref_ura(below(64));
    }
}

static void clocks(struct clock_part *part, unsigned kind, unsigned count, unsigned step)
{
    part->epoch = 3600 + step;
    part->iod_ssr = 1;
    part->iodp = kind == 7 ? 0 : 5;
    part->first = (uint16_t)(kind == 4 ? step % 3 : kind == 6 ? 1 + step % (SATELLITES - count + 1) : 0);
    part->count = (uint8_t)count;
    for (unsigned i = 0; i < count; i++) {
        part->record[i].slot = (uint16_t)(kind == 7 ? 19 + (step * 5 + i * 4) % 75 : 0);
        part->record[i].iod_corr = (uint8_t)below(8);
        part->record[i].c0 = (int16_t)((int)below(4000) - 2000);
    }
}

/* A type 3 with as many biases as it has room for: 12 satellites, or 2 of the most. */
static void biases(struct bias_part *part, unsigned step)
{
    bool many = step % 2 == 0;
    part->epoch = 3600 + step;
    part->iod_ssr = 1;
    part->count = many ? 12 : 2;
    for (unsigned i = 0; i < part->count; i++) {
        part->sat[i].slot = (uint16_t)(19 + (step * 7 + i * 3) % 75);
        part->sat[i].count = (uint8_t)(many ? 1 + (i < 5) : 15 - 5 * i);
    }
    for (unsigned i = 0; i < (many ? 17u : 25u); i++) {
        part->bias[i].mode = (uint8_t)below(16);
        part->bias[i].value = (int16_t)((int)below(4096) - 2048);
    }
}

static void codes(struct code_part *part, unsigned step)
{
    part->epoch = 3600 + step;
    part->iod_ssr = 1;
    part->iodp = 5;
    for (unsigned i = 0; i < SATELLITES; i++)
        part->code[i] = (uint8_t)below(64);
}

static void fill(struct contents *c, unsigned kind, unsigned step)
{
    c->kind = (uint8_t)kind;
    switch (kind) {
    case 1: mask(c, step); break;
    case 2: orbits(&c->orbits, ORBITS, step); break;
    case 3: biases(&c->biases, step); break;
    case 4: clocks(&c->clocks, 4, CLOCKS, step); break;
    case 5: codes(&c->codes, step); break;
    case 6:
    case 7:
        if (step % 2 == 0) {
            clocks(&c->clocks, kind, kind == 6 ? 22 : 15, step);
        } else {
            clocks(&c->clocks, kind, 2, step);
            orbits(&c->orbits, 5, step);
        }
        break;
    default: break;
    }
}

/* The mix of mixed.log, a frame a second. The broadcast renews mask and orbits
 * every 48 seconds and clocks every 6, so that most frames are of type 4 and most
 * of the others of type 2. The proportions are those of the sample night, so that
 * the two can be compared (see sent() in tests/outside/make_samples.c). Every 48
 * seconds bring
 *     1 of type 1    the mask, always the same one: a new one is rare
 *    15 of type 2    six orbits each, round and round all satellites
 *    24 of type 4    the clocks: three sub-types every 6 seconds
 *     3 of type 6    clocks, or clocks and orbits, in between
 *     3 of type 7    the same by slot
 *     2 of type 63   nothing to say; the sample night has types 3 and 5 in the place of
 *                    most of them, which are measured by themselves
 * and all frames are good, which in the sample night they are not. */

static unsigned next_orbit; /* the satellite whose orbit is sent next, from 0 */

/* The slot of a satellite of the mask, from 0. */
static unsigned slot_of(unsigned satellite) { return satellite < 27 ? 19 + satellite : 64 + satellite - 27; }

/* Orbits of the next satellites; those left at the end of a round are blank. */
static void mixed_orbits(struct orbit_part *part, unsigned count, unsigned second)
{
    orbits(part, count, second);
    for (unsigned i = 0; i < count; i++)
        if (next_orbit < SATELLITES)
            part->record[i].slot = (uint16_t)slot_of(next_orbit++);
        else
            memset(&part->record[i], 0, sizeof part->record[i]);
    if (next_orbit == SATELLITES)
        next_orbit = 0;
}

static void mixed_parts(struct contents *c, unsigned kind, unsigned first, unsigned num_c, unsigned num_o,
                        unsigned second)
{
    c->kind = (uint8_t)kind;
    if (num_c > 0) {
        clocks(&c->clocks, kind, num_c, second);
        c->clocks.first = (uint16_t)first;
        for (unsigned i = 0; kind == 7 && i < num_c; i++)
            c->clocks.record[i].slot = (uint16_t)slot_of((second / 6 * 5 + i * 7) % SATELLITES);
    }
    if (num_o > 0)
        mixed_orbits(&c->orbits, num_o, second);
}

static void fill_mixed(struct contents *c, unsigned second)
{
    if (second % 48 == 0) {
        mask(c, 0);
        c->mask.epoch += second;
    } else if (second % 6 >= 1 && second % 6 <= 3) {
        mixed_parts(c, 4, second % 6 - 1, CLOCKS, 0, second);
    } else if (second % 6 == 5) {
        switch (second / 6 % 8) {
        case 0: mixed_parts(c, 6, 1, 20, 0, second); break;
        case 1: mixed_parts(c, 7, 0, 2, 5, second); break;
        case 2: mixed_parts(c, 6, 30, 6, 4, second); break;
        case 3: mixed_parts(c, 7, 0, 15, 0, second); break;
        case 4: mixed_parts(c, 6, 52, 4, 4, second); break;
        case 5: mixed_parts(c, 7, 0, 0, 6, second); break;
        default: c->kind = 63; break;
        }
    } else {
        c->kind = 2;
        mixed_orbits(&c->orbits, ORBITS, second);
    }
}

static void put(FILE *out, const struct contents *c)
{
    uint8_t message[MESSAGE_BYTES], frame[FRAME_BYTES];
    if (ref_write(c, message, MESSAGE_BYTES) != 0) {
        fprintf(stderr, "make_logs: a message of type %u was refused\n", c->kind);
        exit(1);
    }
    ref_encode(message, PRN, 0, frame);
    fwrite(frame, 1, FRAME_BYTES, out);
}

/* Orbits of all satellites. */
static void put_all_orbits(FILE *out)
{
    next_orbit = 0;
    do {
        struct contents c = { .kind = 2 };
        mixed_orbits(&c.orbits, ORBITS, 0);
        put(out, &c);
    } while (next_orbit != 0);
}

/* Opens a log of a name for reading ("rb") or writing ("wb"). */
static FILE *open_log(const char *folder, const char *name, const char *mode)
{
    char path[4096];
    FILE *file;
    snprintf(path, sizeof path, "%s/%s.log", folder, name);
    file = fopen(path, mode);
    if (file == NULL) {
        fprintf(stderr, "make_logs: %s: cannot be opened\n", path);
        exit(1);
    }
    return file;
}

static void close_log(FILE *out, const char *name)
{
    if (fclose(out) != 0) {
        fprintf(stderr, "make_logs: %s.log: cannot be written\n", name);
        exit(1);
    }
}

/* A log of the mask and then so many frames: of one type, or mixed if that is 0. Codes
 * have orbits of all satellites before them. */
static void make_log(const char *folder, const char *name, unsigned frames, unsigned kind)
{
    FILE *out = open_log(folder, name, "wb");
    for (unsigned step = 0; step <= frames; step++) {
        struct contents c = { 0 };
        if (step == 0)
            fill(&c, 1, 0);
        else if (kind == 0)
            fill_mixed(&c, step);
        else
            fill(&c, kind, step);
        put(out, &c);
        if (step == 0 && kind == 5)
            put_all_orbits(out);
    }
    close_log(out, name);
}

/* The log of one name under another, with one bit turned in each frame but the first:
 * one of the 972 coded ones, another from frame to frame, so that two groups fail. */
static void spoil_log(const char *folder, const char *name, const char *spoilt)
{
    FILE *in = open_log(folder, name, "rb"), *out = open_log(folder, spoilt, "wb");
    uint8_t frame[FRAME_BYTES];
    for (unsigned i = 0; fread(frame, 1, FRAME_BYTES, in) == FRAME_BYTES; i++) {
        unsigned bit = 8 * FRAME_BYTES - 6 * SYMBOLS + i * 389 % (6 * SYMBOLS);
        if (i > 0)
            frame[bit / 8] ^= (uint8_t)(128 >> bit % 8);
        fwrite(frame, 1, FRAME_BYTES, out);
    }
    fclose(in);
    close_log(out, spoilt);
}

int main(int argc, char **argv)
{
    static const uint8_t kinds[] = { 1, 2, 4, 6, 7, 63 };
    if (argc != 2) {
        fprintf(stderr, "usage: make_logs FOLDER\n");
        return 2;
    }
    make_log(argv[1], "base", 0, 1);
    for (size_t i = 0; i < sizeof kinds; i++) {
        char name[16];
        snprintf(name, sizeof name, "type-%u", kinds[i]);
        make_log(argv[1], name, FRAMES, kinds[i]);
    }
    make_log(argv[1], "mixed", MIXED, 0);
    spoil_log(argv[1], "mixed", "bad-parity");
    make_log(argv[1], "type-3", FRAMES, 3);
    make_log(argv[1], "orbits", 0, 5);
    make_log(argv[1], "type-5", FRAMES, 5);
    return 0;
}
