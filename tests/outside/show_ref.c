/* show_ref [-f] FILE
 *
 * What the program show is to print, by the independent implementation: one
 * line for each message of 61 bytes or, with -f, for each frame of 125 bytes
 * read without a ledger. A rest at the end is one more, refused 1. */
#include "ref.h"

#include <stdio.h>
#include <string.h>

static void print_ura(struct ura ura)
{
    if (ura.kind == URA_UNKNOWN)
        printf("unknown");
    else if (ura.kind == URA_ABOVE)
        printf("above");
    else
        printf("%u", (unsigned)ura.quarters);
}

static void print_orbits(const struct orbit_part *part)
{
    printf(" orbits");
    for (int i = 0; i < part->count; i++) {
        const struct orbit_record *o = &part->record[i];
        if (o->slot == 0) {
            printf(" -");
            continue;
        }
        printf(" %u/%u/%u/%d/%d/%d/", o->slot, o->iodn, o->iod_corr, o->radial, o->along, o->cross);
        print_ura(o->ura);
    }
}

static void print_clocks(const struct clock_part *part, bool by_slot)
{
    printf(" clocks");
    for (int i = 0; i < part->count; i++) {
        const struct clock_record *c = &part->record[i];
        if (by_slot && c->slot == 0) {
            printf(" -");
            continue;
        }
        printf(" ");
        if (by_slot)
            printf("%u/", c->slot);
        printf("%u/%d", c->iod_corr, c->c0);
    }
}

/* A satellite that has biases is its slot and pairs of mode and bias; one that has
 * none is its slot alone. */
static void print_biases(const struct bias_part *part)
{
    const struct bias *bias = part->bias;
    printf(" biases");
    for (int i = 0; i < part->count; i++) {
        if (part->sat[i].slot == 0) {
            printf(" -");
            continue;
        }
        printf(" %u", part->sat[i].slot);
        for (int k = 0; k < part->sat[i].count; k++, bias++)
            printf("/%u/%d", bias->mode, bias->value);
    }
}

static void print_codes(const struct code_part *part)
{
    printf(" uras");
    for (int i = 0; i < CODES; i++) {
        printf(" ");
        print_ura(ref_ura(part->code[i]));
    }
}

static void print_contents(const struct contents *c)
{
    printf("type %u", c->kind);
    if (c->kind == 1) {
        printf(" epoch %u ssr %u iodp %u slots", (unsigned)c->mask.epoch, c->mask.iod_ssr, c->mask.iodp);
        for (int slot = 1; slot <= SLOTS; slot++)
            if (c->mask.set[slot])
                printf(" %d", slot);
    } else if (c->kind == 2) {
        printf(" epoch %u ssr %u", (unsigned)c->orbits.epoch, c->orbits.iod_ssr);
        print_orbits(&c->orbits);
    } else if (c->kind == 3) {
        printf(" epoch %u ssr %u", (unsigned)c->biases.epoch, c->biases.iod_ssr);
        print_biases(&c->biases);
    } else if (c->kind == 5) {
        printf(" epoch %u ssr %u iodp %u sub %u", (unsigned)c->codes.epoch, c->codes.iod_ssr, c->codes.iodp, c->codes.sub);
        print_codes(&c->codes);
    } else if (c->kind == 4) {
        printf(" epoch %u ssr %u iodp %u sub %u", (unsigned)c->clocks.epoch, c->clocks.iod_ssr, c->clocks.iodp,
               c->clocks.first);
        print_clocks(&c->clocks, false);
    } else if (c->kind == 6 || c->kind == 7) {
        if (c->clocks.count > 0) {
            printf(" clock-epoch %u clock-ssr %u", (unsigned)c->clocks.epoch, c->clocks.iod_ssr);
            if (c->kind == 6)
                printf(" iodp %u from %u", c->clocks.iodp, c->clocks.first);
            print_clocks(&c->clocks, c->kind == 7);
        }
        if (c->orbits.count > 0) {
            printf(" orbit-epoch %u orbit-ssr %u", (unsigned)c->orbits.epoch, c->orbits.iod_ssr);
            print_orbits(&c->orbits);
        }
    }
}

int main(int argc, char **argv)
{
    bool frames = argc == 3 && strcmp(argv[1], "-f") == 0;
    const char *name = argc > 1 ? argv[argc - 1] : "";
    size_t size = frames ? FRAME_BYTES : MESSAGE_BYTES, n;
    uint8_t bytes[FRAME_BYTES];
    FILE *in;

    if (argc != 2 + frames) {
        fprintf(stderr, "usage: show_ref [-f] FILE\n");
        return 2;
    }
    in = strcmp(name, "-") == 0 ? stdin : fopen(name, "rb");
    if (in == NULL) {
        fprintf(stderr, "show_ref: %s: cannot be opened\n", name);
        return 1;
    }
    while ((n = fread(bytes, 1, size, in)) > 0) {
        struct contents c;
        struct detail detail;
        unsigned refusal = frames ? ref_read_frame_detail(bytes, n, &c, &detail) : ref_read(bytes, n, &c);
        if (refusal == 6) {
            printf("refused 6 group %u failing %u\n", detail.first, detail.failing);
            continue;
        }
        if (refusal != 0) {
            printf("refused %u\n", refusal);
            continue;
        }
        if (frames)
            printf("prn %u ", ref_frame_prn(bytes));
        print_contents(&c);
        printf("\n");
    }
    return 0;
}
