/* frames CALL TIMES: makes 64 frames of fixed messages of any bits, then goes over
 * them TIMES times with one call of the C boundary, and prints a sum over what it
 * answers and leaves. Linked once with each contender. CALL is
 *   make     qvd_make_frame
 *   check    qvd_check_frame, which accepts
 *   parity   qvd_next_piece of the 125 bytes: their sync and the 81 groups, and
 *            nothing else, are looked at, and all is right */
#include "quieuvodan.h"

#include <inttypes.h>
#include <stdio.h>
#include <stdlib.h>
#include <string.h>

enum { FRAMES = 64 };
static uint8_t messages[FRAMES][QVD_MESSAGE_BYTES], frames[FRAMES][QVD_FRAME_BYTES];

static uint32_t make(unsigned i)
{
    return qvd_make_frame(messages[i], QVD_MESSAGE_BYTES, 60, (uint8_t)(i % 32), frames[i], QVD_FRAME_BYTES);
}

static uint32_t check(unsigned i)
{
    return qvd_check_frame(messages[i], QVD_MESSAGE_BYTES, frames[i], QVD_FRAME_BYTES);
}

static uint32_t parity(unsigned i) { return qvd_next_piece(frames[i], QVD_FRAME_BYTES) ^ QVD_FRAME_BYTES; }

int main(int argc, char **argv)
{
    static const struct {
        const char *name;
        uint32_t (*call)(unsigned);
    } calls[] = { { "make", make }, { "check", check }, { "parity", parity } };
    uint32_t state = 1, sum = 1;

    if (argc != 3)
        return 2;
    for (unsigned i = 0; i < FRAMES; i++) {
        for (unsigned k = 0; k < QVD_MESSAGE_BYTES; k++) {
            state = state * 1664525u + 1013904223u;
            messages[i][k] = (uint8_t)(state >> 24);
        }
        messages[i][QVD_MESSAGE_BYTES - 1] &= 0xFC;
        if (make(i) != 0)
            return 1;
    }
    for (unsigned c = 0; c < sizeof calls / sizeof calls[0]; c++)
        for (unsigned long t = strcmp(argv[1], calls[c].name) == 0 ? strtoul(argv[2], NULL, 10) : 0; t > 0; t--)
            for (unsigned i = 0; i < FRAMES; i++)
                if (calls[c].call(i) != 0)
                    return 1;
    for (unsigned i = 0; i < FRAMES; i++)
        for (unsigned k = 0; k < QVD_FRAME_BYTES; k++)
            sum = sum * 16777619 ^ frames[i][k];
    printf("%08" PRIx32 "\n", sum);
    return 0;
}
