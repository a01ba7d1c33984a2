/* pack_ref [-f] FILE
 *
 * What the program pack is to write, by the independent implementation: a message
 * of 61 bytes for each line that show prints or, with -f, a frame of 125 bytes with
 * all flags 0 for each line that show -f prints. Blank lines and remarks are passed
 * over. The first faulty line is named and ends the program with status 1, and
 * nothing is written. */
#include "lines.h"
#include "ref.h"

#include <stdio.h>
#include <stdlib.h>
#include <string.h>

enum { MOST_WORDS = 400, MOST_PARTS = 40 };

/* The words of the line at hand, and how many of them are read. */
static struct {
    struct chars word[MOST_WORDS];
    size_t count, at;
    bool good;
} line;

static bool any_left(void) { return line.at < line.count; }

static struct chars next_word(void)
{
    if (any_left())
        return line.word[line.at++];
    line.good = false;
    return (struct chars){ (const uint8_t *)"", 0 };
}

/* A decimal number from low to high; one beyond them is the nearer of the two. */
static int64_t number_in(struct chars word, int64_t low, int64_t high)
{
    bool minus = word.n > 0 && word.at[0] == '-';
    int64_t number = 0;

    line.good = line.good && word.n > minus && !(minus && low == 0);
    for (size_t i = minus; i < word.n; i++) {
        line.good = line.good && word.at[i] >= '0' && word.at[i] <= '9';
        if (number < INT64_C(1) << 40)
            number = 10 * number + (word.at[i] - '0');
    }
    number = minus ? -number : number;
    return number < low ? low : number > high ? high : number;
}

static uint8_t byte_of(struct chars word) { return (uint8_t)number_in(word, 0, 255); }
static uint16_t two_of(struct chars word) { return (uint16_t)number_in(word, 0, 65535); }
static int16_t signed_of(struct chars word) { return (int16_t)number_in(word, -32768, 32767); }

/* The name, and the number behind it. */
static struct chars named(const char *name)
{
    line.good = word_is(next_word(), name) && line.good;
    return next_word();
}

static uint32_t epoch_named(const char *name) { return (uint32_t)number_in(named(name), 0, UINT32_MAX); }

static void name(const char *name) { line.good = word_is(next_word(), name) && line.good; }

/* The parts of a word between its slashes; how many there are is answered. */
static size_t parts_of(struct chars word, struct chars part[MOST_PARTS])
{
    size_t count = 0, from = 0;
    for (size_t i = 0; i <= word.n; i++)
        if (i == word.n || word.at[i] == '/') {
            if (count < MOST_PARTS)
                part[count] = (struct chars){ word.at + from, i - from };
            count++;
            from = i + 1;
        }
    return count;
}

static void want(bool right) { line.good = line.good && right; }

/* Whether another record of a part stands there: nothing, or the next part's name,
 * ends it. */
static bool more_records(void) { return line.good && any_left() && !word_is(line.word[line.at], "orbit-epoch"); }

static struct ura ura_of(struct chars word)
{
    if (word_is(word, "unknown"))
        return (struct ura){ URA_UNKNOWN, 0 };
    if (word_is(word, "above"))
        return (struct ura){ URA_ABOVE, 0 };
    return (struct ura){ URA_QUARTERS, (uint32_t)number_in(word, 0, UINT32_MAX) };
}

static void read_orbits(struct orbit_part *part)
{
    for (name("orbits"); more_records(); part->count++) {
        struct chars word = next_word(), p[MOST_PARTS];
        struct orbit_record *o = &part->record[part->count];
        want(part->count < ORBITS);
        if (!line.good || word_is(word, "-"))
            continue;
        want(parts_of(word, p) == 7);
        if (line.good)
            *o = (struct orbit_record){ two_of(p[0]), two_of(p[1]), byte_of(p[2]), signed_of(p[3]),
                                        signed_of(p[4]), signed_of(p[5]), ura_of(p[6]) };
        want(o->slot != 0);
    }
}

static void read_clocks(struct clock_part *part, bool by_slot)
{
    for (name("clocks"); more_records(); part->count++) {
        struct chars word = next_word(), p[MOST_PARTS];
        struct clock_record *c = &part->record[part->count];
        want(part->count < CLOCKS);
        if (!line.good || (by_slot && word_is(word, "-")))
            continue;
        want(parts_of(word, p) == (by_slot ? 3 : 2));
        if (line.good)
            *c = (struct clock_record){ by_slot ? two_of(p[0]) : 0, byte_of(p[by_slot]), signed_of(p[by_slot + 1]) };
        want(!by_slot || c->slot != 0);
    }
}

static void read_biases(struct bias_part *part)
{
    size_t biases = 0;
    for (name("biases"); more_records(); part->count++) {
        struct chars word = next_word(), p[MOST_PARTS];
        struct bias_sat *sat = &part->sat[part->count];
        size_t parts = parts_of(word, p);
        want(part->count < BIAS_SATS && parts % 2 == 1 && parts < MOST_PARTS && biases + parts / 2 <= BIASES);
        if (!line.good || word_is(word, "-"))
            continue;
        *sat = (struct bias_sat){ two_of(p[0]), (uint8_t)(parts / 2) };
        want(sat->slot != 0);
        for (size_t i = 1; i < parts; i += 2)
            part->bias[biases++] = (struct bias){ byte_of(p[i]), signed_of(p[i + 1]) };
    }
}

/* A URA that no code gives has code 255, which cannot be written. */
static void read_codes(struct code_part *part)
{
    name("uras");
    for (unsigned i = 0; i < CODES; i++) {
        int code = ref_ura_code(ura_of(next_word()));
        part->code[i] = (uint8_t)(code < 0 ? 255 : code);
    }
}

static void read_mask(struct mask *mask)
{
    for (name("slots"); more_records();) {
        int64_t slot = number_in(next_word(), 0, SLOTS + 1);
        want(slot >= 1 && slot <= SLOTS);
        if (line.good)
            mask->set[slot] = true;
    }
}

static void read_parts(struct contents *c)
{
    if (any_left() && word_is(line.word[line.at], "clock-epoch")) {
        c->clocks.epoch = epoch_named("clock-epoch");
        c->clocks.iod_ssr = byte_of(named("clock-ssr"));
        if (c->kind == 6) {
            c->clocks.iodp = byte_of(named("iodp"));
            c->clocks.first = two_of(named("from"));
        }
        read_clocks(&c->clocks, c->kind == 7);
        want(c->clocks.count > 0);
    }
    if (any_left()) {
        c->orbits.epoch = epoch_named("orbit-epoch");
        c->orbits.iod_ssr = byte_of(named("orbit-ssr"));
        read_orbits(&c->orbits);
        want(c->orbits.count > 0);
    }
}

/* The contents that a line says from the word `type` on. */
static void read_contents(struct contents *c)
{
    uint32_t epoch = 0;
    uint8_t ssr = 0, iodp = 0, sub = 0;

    c->kind = byte_of(named("type"));
    if (c->kind >= 1 && c->kind <= 5) {
        epoch = epoch_named("epoch");
        ssr = byte_of(named("ssr"));
        if (c->kind == 1 || c->kind == 4 || c->kind == 5)
            iodp = byte_of(named("iodp"));
        if (c->kind == 4 || c->kind == 5)
            sub = byte_of(named("sub"));
    }
    switch (c->kind) {
    case 1:
        c->mask.epoch = epoch, c->mask.iod_ssr = ssr, c->mask.iodp = iodp;
        read_mask(&c->mask);
        break;
    case 2:
        c->orbits.epoch = epoch, c->orbits.iod_ssr = ssr;
        read_orbits(&c->orbits);
        want(c->orbits.count == ORBITS);
        break;
    case 3:
        c->biases.epoch = epoch, c->biases.iod_ssr = ssr;
        read_biases(&c->biases);
        break;
    case 4:
        c->clocks.epoch = epoch, c->clocks.iod_ssr = ssr, c->clocks.iodp = iodp, c->clocks.first = sub;
        read_clocks(&c->clocks, false);
        want(c->clocks.count == CLOCKS);
        break;
    case 5:
        c->codes.epoch = epoch, c->codes.iod_ssr = ssr, c->codes.iodp = iodp, c->codes.sub = sub;
        read_codes(&c->codes);
        break;
    case 6:
    case 7: read_parts(c); break;
    default: break;
    }
    want(!any_left());
}

/* Packs the line at hand; what it is refused with is answered. A PRN that is none of
 * the ten is refused 4 before the contents are looked at. */
static unsigned pack_line(bool frames, uint8_t *out)
{
    uint8_t message[MESSAGE_BYTES];
    struct contents c = { 0 };
    struct ledger none;
    unsigned prn = frames ? byte_of(named("prn")) : 0, refusal;

    read_contents(&c);
    if (!line.good)
        return 0;
    if (frames && ref_open(&none, prn) != 0)
        return 4;
    refusal = ref_write(&c, message, MESSAGE_BYTES);
    if (!frames && refusal == 0)
        memcpy(out, message, MESSAGE_BYTES);
    if (frames && refusal == 0)
        refusal = ref_make_frame(message, MESSAGE_BYTES, prn, 0, out, FRAME_BYTES);
    return refusal;
}

int main(int argc, char **argv)
{
    bool frames = argc == 3 && strcmp(argv[1], "-f") == 0;
    size_t size = frames ? FRAME_BYTES : MESSAGE_BYTES, written = 0;
    struct bytes bytes = { 0 };
    struct chars text, rest;
    uint8_t *out;

    program = "pack_ref";
    if (argc != 2 + frames) {
        fprintf(stderr, "usage: pack_ref [-f] FILE\n");
        return 2;
    }
    read_file(argv[argc - 1], &bytes);
    text = text_of(&bytes);
    out = malloc(FRAME_BYTES * (bytes.n / 6 + 1)); /* no line is shorter than `type 6` */
    if (out == NULL)
        stop("memory", "there is none left");
    for (unsigned long number = 1; next_line(&text, &rest); number++) {
        unsigned refusal;
        line.count = words_of(rest, line.word, MOST_WORDS);
        line.at = 0;
        line.good = line.count <= MOST_WORDS && rest.n <= LINE_BYTES;
        if (line.count == 0 && line.good)
            continue;
        refusal = line.good ? pack_line(frames, out + written) : 0;
        if (!line.good || refusal != 0) {
            fprintf(stderr, "pack_ref: %s: line %lu: ", called(argv[argc - 1]), number);
            fprintf(stderr, line.good ? "refused %u\n" : "not a message\n", refusal);
            return 1;
        }
        written += size;
    }
    fwrite(out, 1, written, stdout);
    return fflush(stdout) != 0;
}
