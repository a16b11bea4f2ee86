/* A table that is written frame by frame, for the hosts of tools/bench. */
#ifndef BENCH_TABLE_H
#define BENCH_TABLE_H

typedef unsigned char byte;

enum { MOST = 4096, NONE = 0xFFFF };

static byte table[12 * MOST];
static int frames;

static void put(int kind, int flag, int a, int b, int c, int d, int e) {
    byte *p = table + 12 * frames++;
    const int fields[5] = {a, b, c, d, e};
    p[0] = kind;
    p[1] = flag;
    for (int i = 0; i < 5; i++) {
        p[2 + 2 * i] = fields[i] >> 8;
        p[3 + 2 * i] = fields[i];
    }
}

#define EACH(i, n) for (int i = 0; i < (n); i++)

#endif
