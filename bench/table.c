/* table HOW LOG: hands the frames of a log, one call each, to a ledger for PRN 60, to
 * a table in which PRN 60 has the first room, or to one in which it has the last
 * (HOW is ledger, first or last), and prints how many were taken, and a sum over the
 * answers in their order. Where PRN 60 stands last, three others are open. */
#include "quieuvodan.h"

#include <fcntl.h>
#include <inttypes.h>
#include <stdio.h>
#include <string.h>
#include <unistd.h>

enum { MOST = 4096 };
static uint8_t ledger[QVD_LEDGER_BYTES], table[QVD_TABLE_BYTES], tally[QVD_TALLY_BYTES], log_bytes[QVD_FRAME_BYTES * MOST];

static uint32_t to_ledger(const uint8_t *frame, size_t n) { return qvd_take(ledger, sizeof ledger, frame, n); }

static uint32_t to_table(const uint8_t *frame, size_t n)
{
    return qvd_table_take(table, sizeof table, tally, sizeof tally, frame, n);
}

static int open_for(uint8_t prn) { return qvd_table_open(table, sizeof table, tally, sizeof tally, prn); }

int main(int argc, char **argv)
{
    int file = argc == 3 ? open(argv[2], O_RDONLY) : -1, refused;
    uint32_t (*hand_in)(const uint8_t *, size_t) = to_table;
    size_t size = 0, taken = 0;
    uint32_t sum = 1;
    ssize_t n;

    if (file < 0)
        return 2;
    if (strcmp(argv[1], "ledger") == 0) {
        hand_in = to_ledger;
        refused = qvd_open(ledger, sizeof ledger, 60);
    } else if (strcmp(argv[1], "first") == 0) {
        refused = open_for(60);
    } else {
        refused = open_for(1) | open_for(2) | open_for(63) | open_for(60);
    }
    while ((n = read(file, log_bytes + size, sizeof log_bytes - size)) > 0)
        size += (size_t)n;
    if (n < 0 || refused != 0)
        return 1;
    for (size_t at = 0; at < size; at += QVD_FRAME_BYTES) {
        size_t left = size - at;
        uint32_t answer = hand_in(log_bytes + at, left < QVD_FRAME_BYTES ? left : QVD_FRAME_BYTES);
        taken += answer == QVD_TAKEN;
        sum = sum * 16777619 ^ answer;
    }
    printf("%zu %08" PRIx32 "\n", taken, sum);
    return 0;
}
