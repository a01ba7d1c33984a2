/* See texts.h. */
#include "texts.h"

#include "lines.h"

#include <stdio.h>
#include <stdlib.h>
#include <string.h>

bool is_number(const char *word)
{
    size_t digits = word == NULL ? 0 : strspn(word, "0123456789");
    return digits > 0 && digits <= 9 && word[digits] == 0;
}

/* A number of tenths of a millimetre in metres. */
static void print_metres(char separator, int32_t value)
{
    long size = labs((long)value);
    printf("%c%s%ld.%04ld", separator, value < 0 ? "-" : "", size / 10000, size % 10000);
}

static void print_words(char separator, const char *words)
{
    for (; *words != 0; words++)
        putchar(*words == ' ' ? separator : *words);
}

void print_head(char separator, const char *more)
{
    print_words(separator, "slot sat iodn corr radial_m along_m cross_m clock_m ura_mm");
    print_words(separator, more);
    putchar('\n');
}

void print_row(char separator, const struct row *row)
{
    printf("%u%c", row->slot, separator);
    print_satellite(row->slot);
    printf("%c%u%c%u", separator, row->iodn, separator, row->iod_corr);
    print_metres(separator, row->radial);
    print_metres(separator, row->along);
    print_metres(separator, row->cross);
    print_metres(separator, row->clock);
    if (row->ura.kind == URA_ABOVE)
        printf("%cabove", separator);
    else
        printf("%c%u.%02u", separator, (unsigned)(row->ura.quarters / 4), (unsigned)(row->ura.quarters % 4 * 25));
}
