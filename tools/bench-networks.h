/* The tables that the hosts of tools/bench measure, grouped by owner as a compiler writes them, and their frames in another order. */
#ifndef BENCH_NETWORKS_H
#define BENCH_NETWORKS_H

#include "bench-table.h"

void *memcpy(void *, const void *, unsigned long);
void *memset(void *, int, unsigned long);

/* ---- networks that go round: each never stops by itself once its source's event 0 has arrived */

/* The table of document 01 with one event connection more, from the block's event output back to its own event input. */
static inline void worked(void) {
    put(1, 3, 1, 0, 0, 0, 0), put(1, 0, 0, 0, 0, 0, 0), put(1, 4, 2, 0, 0, 0, 0);
    put(2, 0, 1, 0, 0, 0, 0), put(2, 0, 2, 0, 0, 0, 0);
    put(3, 0, 0, 0, 0, 0, 0), put(3, 0, 1, 0, 0, 0, 0);
    put(4, 1, 0, 0, 0, 0, 0), put(4, 0, 1, 0, 0, 0, 0), put(4, 1, 1, 0, 0, 0, 0), put(4, 0, 2, 0, 0, 0, 0);
    put(5, 0, 0, 1, 0, 0, 0), put(5, 0, 1, 3, 0, 0, 0), put(5, 1, 0, 0, 0, 0, 0), put(5, 1, 1, 2, 0, 0, 0);
    put(6, 0, 1, 0, 0, 0, 0), put(6, 0, 1, 0, 0, 0, 0);
    put(7, 0, 0, 1, 0, 0, 0), put(7, 0, 1, 0, NONE, 0, 0);
    put(8, 0, 1, 0, 1, 1, 0), put(9, 1, 2, 1, 1, 0, 0);
    put(10, 0, 0, 0, 0, 0, 0), put(10, 0, 1, 0, 0, 0, 0), put(10, 0, 1, 1, 0, 0, 0);
    put(11, 0, 0, 1, 0, 0, 0), put(11, 0, 2, 3, 0, 0, 0);
}

/*
 * A source (element 0), n basic blocks (1 to n) and a sink (n + 1). Block i has event input i, event output i + 1 and the variables x (input),
 * y (output) and t (internal), 3i + 1 and on; the source's variable is 0 and the sink's is 3n + 1, its event input n. The sink has the highest
 * priority, or its event would wait as long as a block's does.
 */
static inline void parts_of_blocks(int n, int states) {
    put(1, 3, n + 1, 0, 0, 0, 0);
    EACH(i, n) put(1, 0, i + 1, states * i, 0, 0, 0);
    put(1, 4, 0, 0, 0, 0, 0);
    EACH(i, n + 1) put(2, 0, i + 1, 0, 0, 0, 0);
    EACH(i, n + 1) put(3, 0, i, 0, 0, 0, 0);
    put(4, 1, 0, 0, 0, 0, 0);
    EACH(i, n) put(4, 0, i + 1, 0, 0, 0, 0), put(4, 1, i + 1, 0, 0, 0, 0), put(4, 2, i + 1, 0, 1, 0, 0);
    put(4, 0, n + 1, 0, 0, 0, 0);
    put(5, 1, 0, 0, 0, 0, 0);
    EACH(i, n) put(5, 0, i, 3 * i + 1, 0, 0, 0), put(5, 1, i + 1, 3 * i + 2, 0, 0, 0);
    put(5, 0, n, 3 * n + 1, 0, 0, 0);
    EACH(i, n) EACH(s, states) put(6, 0, i + 1, 0, 0, 0, 0);
}

/* Two states: the event leads to the second, whose action adds x to t, copies t to y and fires; then back. 18 frames a block, and 11 besides. */
static inline void two_states(int n) {
    parts_of_blocks(n, 2);
    EACH(i, n) {
        put(7, 4, 2 * i, 2 * i + 1, i, 3 * i + 1, 3 * i + 3);
        put(7, 0, 2 * i, 2 * i + 1, i, 0, 0);
        put(7, 0, 2 * i + 1, 2 * i, NONE, 0, 0);
    }
    EACH(i, n) put(8, 0, 2 * i + 1, 2 * i, 2, i + 1, 0);
    EACH(i, n) put(9, 1, 3 * i + 3, 3 * i + 3, 3 * i + 1, 0, 0), put(9, 0, 3 * i + 2, 3 * i + 3, 0, 0, 0);
}

/* Each block's event and value go to the next block, the last one's event to the first and to the sink. */
static inline void in_a_ring(int n) {
    put(10, 0, 0, 0, 0, 0, 0);
    EACH(i, n) put(10, 0, i + 1, (i + 1) % n, 0, 0, 0);
    put(10, 0, n, n, 0, 0, 0);
    put(11, 0, 0, 1, 0, 0, 0);
    EACH(i, n) put(11, 0, 3 * i + 2, 3 * i + 4, 0, 0, 0);
}

static inline void ring(int n) { two_states(n), in_a_ring(n); }

/* Eight states of two transitions and an action each; an event leads one state on where x is at most t, else two. 54 frames a block. */
static inline void many_states(int n) {
    parts_of_blocks(n, 8);
    EACH(i, n) EACH(s, 8) {
        put(7, 4, 8 * i + s, 8 * i + (s + 1) % 8, i, 3 * i + 1, 3 * i + 3);
        put(7, 0, 8 * i + s, 8 * i + (s + 2) % 8, i, 0, 0);
    }
    EACH(i, n) EACH(s, 8) put(8, 0, 8 * i + s, 12 * i + 3 * (s / 2) + s % 2 * 2, s % 2 ? 1 : 2, i + 1, 0);
    EACH(i, n) EACH(s, 4) {
        put(9, 1, 3 * i + 3, 3 * i + 3, 3 * i + 1, 0, 0), put(9, 0, 3 * i + 2, 3 * i + 3, 0, 0, 0);
        put(9, 2, 3 * i + 2, 3 * i + 3, 3 * i + 1, 0, 0);
    }
    in_a_ring(n);
}

/* The first block's event and value go to all n others, the last one's event to the first and to the sink. */
static inline void fan_out(int n) {
    two_states(n + 1);
    put(10, 0, 0, 0, 0, 0, 0);
    EACH(i, n) put(10, 0, 1, i + 1, 0, 0, 0);
    put(10, 0, n + 1, 0, 0, 0, 0), put(10, 0, n + 1, n + 1, 0, 0, 0);
    put(11, 0, 0, 1, 0, 0, 0);
    EACH(i, n) put(11, 0, 2, 3 * i + 4, 0, 0, 0);
    put(11, 0, 3 * n + 2, 3 * n + 4, 0, 0, 0);
}

/*
 * A source with four values, n interfaces with eight and a sink with five. The last one's event goes to the first and to the sink, and so do
 * its values: four of them to the first, whose other four come from the source, and five to the sink.
 */
static inline void interfaces(int n) {
    const int own = 4, sink = own + 16 * n;
    put(1, 3, n + 1, 0, 0, 0, 0);
    EACH(i, n) put(1, 1, i + 1, 0, 0, 0, 0);
    put(1, 4, 0, 0, 0, 0, 0);
    EACH(i, n + 1) put(2, 0, i + 1, 0, 0, 0, 0);
    EACH(i, n + 1) put(3, 0, i, 0, 0, 0, 0);
    EACH(k, 4) put(4, 1, 0, 0, 0, 0, 0);
    EACH(i, n) EACH(k, 16) put(4, k / 8, i + 1, 0, k, 0, 0);
    EACH(k, 5) put(4, 0, n + 1, 0, 0, 0, 0);
    EACH(k, 4) put(5, 1, 0, k, 0, 0, 0);
    EACH(i, n) EACH(k, 8) put(5, 0, i, own + 16 * i + k, 0, 0, 0);
    EACH(k, 5) put(5, 0, n, sink + k, 0, 0, 0);
    put(10, 0, 0, 0, 0, 0, 0);
    EACH(i, n) put(10, 0, i + 1, (i + 1) % n, 0, 0, 0);
    put(10, 0, n, n, 0, 0, 0);
    EACH(k, 4) put(11, 0, k, own + k, 0, 0, 0);
    EACH(i, n - 1) EACH(k, 8) put(11, 0, own + 16 * i + 8 + k, own + 16 * i + 16 + k, 0, 0, 0);
    EACH(k, 4) put(11, 0, sink - 8 + k, own + 4 + k, 0, 0, 0);
    EACH(k, 5) put(11, 0, sink - 8 + k, sink + k, 0, 0, 0);
}

/*
 * The same ring of n interfaces with no sink, and all eight values go round, each to the next place: so in each move all sixteen values of an
 * interface change, and its trace has the most frames that a move has.
 */
static inline void turning(int n) {
    put(1, 3, n, 0, 0, 0, 0);
    EACH(i, n) put(1, 1, i, 0, 0, 0, 0);
    EACH(i, n) put(2, 0, i + 1, 0, 0, 0, 0);
    EACH(i, n + 1) put(3, 0, i, 0, 0, 0, 0);
    EACH(i, n) EACH(k, 16) put(4, k / 8, i + 1, 0, k % 8, 0, 0);
    EACH(i, n) EACH(k, 8) put(5, 0, i, 16 * i + k, 0, 0, 0);
    EACH(i, n + 1) put(10, 0, i, i % n, 0, 0, 0);
    EACH(i, n) EACH(k, 8) put(11, 0, 16 * i + 8 + k, 16 * ((i + 1) % n) + (k + 1) % 8, 0, 0, 0);
}

static const struct network {
    const char *name;
    void (*make)(int n);
    int n, frames, values; /* values of the event that arrives */
} networks[] = {
    {"ring of basic blocks and a sink", ring, 2, 47, 1},
    {"ring of basic blocks and a sink", ring, 8, 155, 1},
    {"ring of basic blocks and a sink", ring, 28, 515, 1},
    {"ring of basic blocks and a sink", ring, 60, 1091, 1},
    {"the same, many states", many_states, 62, 3359, 1},
    {"fan-out to 60 blocks", fan_out, 60, 1109, 1},
    {"25 interfaces in a row, 8 values each", interfaces, 25, 929, 4},
};
enum { NETWORKS = sizeof networks / sizeof networks[0] };

/* ---- tables for the check: `groups` copies of one group of 512 frames, so that each size has the same work for a frame */

enum { GROUP = 512 };

/* A source with 27 events and a sink with 27, 12 variables each, 8 associations for each event: 432 of 512 are 05. */
static inline void mostly_05(int groups) {
    EACH(g, groups) put(1, 3, 2 * g, 0, 0, 0, 0), put(1, 4, 2 * g + 1, 0, 0, 0, 0);
    EACH(g, groups) EACH(i, 27) put(2, i, 2 * g + 1, 0, 0, 0, 0);
    EACH(g, groups) EACH(i, 27) put(3, 0, 2 * g, 0, 0, 0, 0);
    EACH(g, groups) EACH(i, 24) put(4, i < 12, 2 * g + (i >= 12), 0, i, 0, 0);
    EACH(g, groups) EACH(i, 27) EACH(j, 8) {
        put(5, 0, 27 * g + i, 24 * g + 12 + (i + j) % 12, 0, 0, 0);
        put(5, 1, 27 * g + i, 24 * g + (i + j) % 12, 0, 0, 0);
    }
}

/* A basic block with 22 event inputs and 22 event outputs, connected with each other: 466 of 512 are 0A. */
static inline void mostly_0A(int groups) {
    EACH(g, groups) put(1, 0, g, g, 0, 0, 0);
    EACH(g, groups) EACH(i, 22) put(2, i, g, 0, 0, 0, 0);
    EACH(g, groups) EACH(i, 22) put(3, 0, g, 0, 0, 0, 0);
    EACH(g, groups) put(6, 0, g, 0, 0, 0, 0);
    EACH(g, groups) EACH(i, 466) put(10, 0, 22 * g + i / 22, 22 * g + i % 22, 0, 0, 0);
}

/* A basic block with 249 actions of 64 steps each, over 250 steps: 499 of 512 are 08 and 09. */
static inline void mostly_08_09(int groups) {
    static const byte operands[9] = {1, 2, 2, 1, 2, 2, 2, 2, 0};
    EACH(g, groups) put(1, 0, g, 4 * g, 0, 0, 0);
    EACH(g, groups) put(2, 0, g, 0, 0, 0, 0);
    EACH(g, groups) put(3, 0, g, 0, 0, 0, 0);
    EACH(g, groups) EACH(i, 4) put(4, i < 3 ? i : 2, g, 0, i, 0, 0);
    EACH(g, groups) EACH(i, 4) put(6, 0, g, 0, 0, 0, 0);
    EACH(g, groups) put(7, 0, 4 * g, 4 * g + 1, g, 0, 0), put(7, 3, 4 * g + 1, 4 * g, NONE, 4 * g, 4 * g + 3);
    EACH(g, groups) EACH(i, 249) put(8, 0, 4 * g + i % 4, 250 * g + i % 186, 64, g, 0);
    EACH(g, groups) EACH(i, 250) {
        int uses = operands[i % 9], first = 4 * g;
        put(9, i % 9, first + 1 + i % 3, uses > 0 ? first + i % 4 : 0, uses > 1 ? first + i / 4 % 4 : 0, 0, 0);
    }
}

/* ---- other orders */

enum { KINDS = 12 };

static inline int field(const byte *p, int i) { return p[2 + 2 * i] << 8 | p[3 + 2 * i]; }
static inline void set_field(byte *p, int i, int x) { p[2 + 2 * i] = x >> 8, p[3 + 2 * i] = x; }

/* Fixed pseudo-random numbers, the same in each run. */
static unsigned long long drawn = 1;
static inline int draw(int below) {
    drawn = drawn * 6364136223846793005ull + 1442695040888963407ull;
    return (int)((drawn >> 33) % (unsigned)below);
}

/* Fills an array with 0 to n - 1 in another order. */
static inline void draw_order(int *order, int n) {
    EACH(i, n) {
        int j = draw(i + 1);
        order[i] = order[j];
        order[j] = i;
    }
}

/* Whose a frame is, as far as the order among the frames of one owner has a meaning. */
static inline int owner_in_kind(const byte *p) { return p[0] == 5 ? 65536 * p[1] + field(p, 0) : p[0] == 1 || p[0] == 11 ? -1 : field(p, 0); }

/* By kind: the kind that each field refers to, 0 for none. What goes by the flag besides: refers_to. */
static const byte referred[KINDS][5] = {{0}, {0, 6}, {1}, {1}, {1}, {2, 4}, {1}, {6, 6, 2, 4, 4}, {6, 9, 0, 3}, {4, 4, 4}, {3, 2}, {4, 4}};

static inline int refers_to(const byte *p, int i) {
    static const byte used[9] = {2, 3, 3, 2, 3, 3, 3, 3, 1};
    switch (p[0]) {
    case 1: return p[1] == 0 ? referred[1][i] : 0;
    case 5: return p[1] == 1 && i == 0 ? 3 : referred[5][i];
    case 7: return (p[1] == 0 && i > 2) || field(p, i) == NONE ? 0 : referred[7][i];
    case 8: return (i == 1 && field(p, 2) == 0) || field(p, i) == NONE ? 0 : referred[8][i];
    case 9: return i < used[p[1]] ? 4 : 0;
    default: return referred[p[0]][i];
    }
}

/*
 * The same network with the frames of each kind in another order, and with other ids accordingly. Frames of one owner keep their order among
 * each other, and the steps of an action stay side by side. For tables in which each step is of one action.
 */
static inline void shuffle(void) {
    static byte was[12 * MOST];
    static int id[KINDS][MOST];
    int first[KINDS + 1] = {0}, steps = 0;
    memcpy(was, table, 12 * frames);
    drawn = 1;
    EACH(f, frames) EACH(k, KINDS) first[k + 1] += was[12 * f] <= k;
    EACH(k, KINDS) {
        const byte *frame = was + 12 * first[k];
        const int count = first[k + 1] - first[k];
        if (k == 9) continue;
        draw_order(id[k], count);
        EACH(i, count) EACH(j, i) {
            const int owner = owner_in_kind(frame + 12 * i), kept = id[k][i];
            if (owner < 0 || owner != owner_in_kind(frame + 12 * j) || kept > id[k][j]) continue;
            id[k][i] = id[k][j];
            id[k][j] = kept;
        }
        if (k != 8) continue;
        /* The steps follow in the order of the actions. */
        EACH(at, count) EACH(i, count) if (id[8][i] == at) EACH(s, field(frame + 12 * i, 2)) id[9][field(frame + 12 * i, 1) + s] = steps++;
    }
    EACH(f, frames) {
        const byte *from = was + 12 * f;
        byte *to = table + 12 * (first[from[0]] + id[from[0]][f - first[from[0]]]);
        memcpy(to, from, 12);
        EACH(i, 5) if (refers_to(from, i)) set_field(to, i, id[refers_to(from, i)][field(from, i)]);
    }
}

#endif
