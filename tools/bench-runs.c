// The second host of tools/bench: runs a network without a trace and with one, for callgrind to count.
//
//   bench-runs NETWORK      NETWORK: worked, ring, long-ring, row, long-row or turning-row
//
// Prints the table's frames, the moves made and the frames told. It stops with 1 where the two runs do not leave the same store and output.
#include <stdio.h>

#include "bench-networks.h"
#include "xaluudhiga.h"

int strcmp(const char *, const char *);
int memcmp(const void *, const void *, unsigned long);

enum { WORDS = 8192, VALUES = 4 };

static uint32_t store[WORDS], other[WORDS];
static byte output[400000], beside[400000], trace[12 * 300000];

// A run and a traced run from the same store, each with room for all.
static int run_both(int values, uint32_t budget) {
    static const int32_t given[VALUES] = {21, 2, 3, 4};
    const size_t length = 12 * frames;
    uint32_t moves, stop, untrue, traced_moves, traced_stop, traced_untrue;
    size_t bytes, traced_bytes, traced;
    EACH(twice, 2) {
        uint32_t *into = twice ? other : store;
        if (xal_load(table, length, into, WORDS) || xal_advance(table, length, into, WORDS, 10) ||
            xal_arrival(table, length, into, WORDS, 0, 5, given, values))
            return 1;
    }
    xal_run(table, length, store, WORDS, budget, output, sizeof output, &moves, &stop, &bytes, &untrue);
    xal_run_traced(table, length, other, WORDS, budget, beside, sizeof beside, trace, sizeof trace, &traced_moves, &traced_stop,
                   &traced_bytes, &traced, &traced_untrue);
    if (moves != budget || traced_moves != moves || traced_stop != stop || traced_bytes != bytes || traced_untrue != untrue)
        return 1;
    printf("%d|%u|%lu\n", frames, (unsigned)moves, (unsigned long)traced / 12);
    return memcmp(store, other, sizeof store) != 0 || memcmp(output, beside, sizeof output) != 0;
}

int main(int words, char **word) {
    const char *network = words == 2 ? word[1] : "";
    if (strcmp(network, "worked") == 0)
        return worked(), run_both(1, 100000);
    if (strcmp(network, "ring") == 0)
        return ring(28), run_both(1, 3000);
    if (strcmp(network, "long-ring") == 0)
        return ring(60), run_both(1, 3000);
    if (strcmp(network, "row") == 0)
        return interfaces(13), run_both(4, 3000);
    if (strcmp(network, "long-row") == 0)
        return interfaces(25), run_both(4, 3000);
    if (strcmp(network, "turning-row") == 0)
        return turning(13), run_both(0, 3000);
    return 2;
}
