/* How many bytes of stack one call of qvd_take uses, and one of qvd_table_take, at most, over the frames of a log: the stack below is
 * painted, the call is made, and what is no longer painted is counted. The table's frames go to the last of four rooms. */
#include "quieuvodan.h"
#include <stdio.h>

#pragma GCC diagnostic ignored "-Wuninitialized"
#pragma GCC diagnostic ignored "-Wunused-but-set-variable"

enum { PAINTED = 64 * 1024 };
static uint8_t ledger[QVD_LEDGER_BYTES], table[QVD_TABLE_BYTES], tally[QVD_TALLY_BYTES];

__attribute__((noinline)) static void paint(void) {
    volatile uint8_t room[PAINTED];
    for (int i = 0; i < PAINTED; i++) room[i] = 0xA5;
}

__attribute__((noinline)) static int used(void) {
    volatile uint8_t room[PAINTED];
    int i = 0;
    while (i < PAINTED && room[i] == 0xA5) i++;
    return PAINTED - i;
}

int main(int argc, char **argv) {
    static const uint8_t prns[QVD_ROOMS] = {1, 2, 63, 60};
    if (argc != 2) return fprintf(stderr, "stack: a log is wanted\n"), 2;
    FILE *log = fopen(argv[1], "rb");
    if (!log) return fprintf(stderr, "stack: %s: cannot be read\n", argv[1]), 1;
    qvd_open(ledger, sizeof ledger, 60);
    for (int i = 0; i < QVD_ROOMS; i++) qvd_table_open(table, sizeof table, tally, sizeof tally, prns[i]);
    paint();
    int idle = used(), most = 0, most_table = 0;
    uint8_t frame[QVD_FRAME_BYTES];
    size_t n;
    while ((n = fread(frame, 1, sizeof frame, log)) > 0) {
        paint();
        qvd_take(ledger, sizeof ledger, frame, n);
        int u = used();
        if (u > most) most = u;
        paint();
        qvd_table_take(table, sizeof table, tally, sizeof tally, frame, n);
        u = used();
        if (u > most_table) most_table = u;
    }
    fclose(log);
    printf("stack of one call of qvd_take: at most %d bytes (idle %d)\n", most, idle);
    printf("stack of one call of qvd_table_take: at most %d bytes\n", most_table);
    return 0;
}
