/* make_subframes GOOD FLIPPED
 *
 * Writes good subframes of D1, one after the other, to the file GOOD, and to the
 * file FLIPPED the same with one bit of each code word flipped. Always the same
 * bytes. */
#include "words.h"

#include <stdio.h>

enum { COUNT = 200, LAST_SECOND = 604799 };

static uint32_t state = 1;

static uint32_t any(uint32_t below)
{
    state = state * 1664525 + 1013904223;
    return (uint32_t)((uint64_t)state * below >> 32);
}

static void put(uint8_t *bytes, unsigned at, unsigned width, uint32_t value)
{
    for (unsigned i = 0; i < width; i++) {
        unsigned bit = at + i;
        bytes[bit / 8] = (uint8_t)(bytes[bit / 8] & ~(0x80 >> bit % 8));
        if (value >> (width - 1 - i) & 1)
            bytes[bit / 8] |= (uint8_t)(0x80 >> bit % 8);
    }
}

static void flip(uint8_t *bytes, unsigned bit) { bytes[bit / 8] ^= (uint8_t)(0x80 >> bit % 8); }

int main(int argc, char **argv)
{
    FILE *good = argc == 3 ? fopen(argv[1], "wb") : NULL, *flipped = argc == 3 ? fopen(argv[2], "wb") : NULL;

    if (good == NULL || flipped == NULL) {
        fprintf(stderr, "usage: make_subframes GOOD FLIPPED\n");
        return 2;
    }
    for (uint32_t i = 0; i < COUNT; i++) {
        uint8_t data[SUBFRAME_DATA_BYTES], subframe[SUBFRAME_BYTES];
        for (size_t k = 0; k < sizeof data; k++)
            data[k] = (uint8_t)(i == 0 ? 0 : i == 1 ? 255 : any(256));
        put(data, 0, 11, 0x712);
        put(data, 15, 3, 1 + i % 5);
        put(data, 18, 20, i == 1 ? LAST_SECOND : 6 * i);
        ref_code_subframe(subframe, data);
        fwrite(subframe, 1, sizeof subframe, good);
        /* The first word ends in a code word; each other has two, in turn. */
        flip(subframe, 15 + any(15));
        for (unsigned word = 1; word < 10; word++) {
            flip(subframe, 30 * word + 2 * any(15));
            flip(subframe, 30 * word + 2 * any(15) + 1);
        }
        fwrite(subframe, 1, sizeof subframe, flipped);
    }
    return fclose(good) != 0 || fclose(flipped) != 0;
}
