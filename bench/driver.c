/* driver LOG: replays a log for PRN 60 through the C boundary and prints how
 * many of its frames were taken, and a sum over the verdicts in their order.
 * Linked once with each contender. */
#include "quieuvodan.h"

#include <fcntl.h>
#include <inttypes.h>
#include <stdio.h>
#include <unistd.h>

enum { MOST = 4096 };
static uint8_t ledger[QVD_LEDGER_BYTES], log_bytes[QVD_FRAME_BYTES * MOST], verdicts[MOST];

int main(int argc, char **argv)
{
    int file = argc == 2 ? open(argv[1], O_RDONLY) : -1;
    size_t size = 0, frames, taken = 0;
    uint32_t sum = 1;
    ssize_t n;

    if (file < 0)
        return 2;
    while ((n = read(file, log_bytes + size, sizeof log_bytes - size)) > 0)
        size += (size_t)n;
    frames = (size + QVD_FRAME_BYTES - 1) / QVD_FRAME_BYTES;
    if (n < 0 || qvd_replay(ledger, sizeof ledger, 60, log_bytes, size, verdicts, frames) != 0)
        return 1;
    for (size_t i = 0; i < frames; i++) {
        taken += verdicts[i] == 0;
        sum = sum * 16777619 ^ verdicts[i];
    }
    printf("%zu %08" PRIx32 "\n", taken, sum);
    return 0;
}
