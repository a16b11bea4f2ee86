// The host of tools/bench: makes tables, calls xal_check on them, and prints what the calls cost.
//
//   bench MODE FRAME..      MODE: times, calls or stack; each FRAME is a line of a small table, in hexadecimal
//
// tools/libc has what the other hosts use of the C library's headers; what is wanted besides is declared here.
#include <stdio.h>

#include "bench-networks.h"
#include "bench-time.h"
#include "xaluudhiga.h"

typedef unsigned long word;

int strcmp(const char *, const char *);
void exit(int);

// ---- the only fault of a table, in its last frame

static byte *last(void) { return table + 12 * (frames - 1); }
static void none(void) {}
static void unused_field(void) { last()[11] = 1; }
static void reference(void) { memset(last() + 2, 0xFF, 2); }
static void repeated(void) { memcpy(last(), last() - 12, 12); }
// The kinds fall: the frames of a kind no longer stand in one stretch.
static void falls(void) { memset(last(), 0, 12), last()[0] = 1; }

static const struct row {
    const char *name;
    void (*make)(int groups);
    void (*spoil)(void);
    int number;
} rows[] = {
    {"05, accepted", mostly_05, none, 0},
    {"05, last refused 2", mostly_05, unused_field, 2},
    {"05, last refused 3", mostly_05, reference, 3},
    {"05, last refused 4", mostly_05, repeated, 4},
    {"05, last out of order", mostly_05, falls, 2},
    {"0A, accepted", mostly_0A, none, 0},
    {"0A, last refused 2", mostly_0A, unused_field, 2},
    {"0A, last refused 3", mostly_0A, reference, 3},
    {"0A, last refused 4", mostly_0A, repeated, 4},
    {"0A, last out of order", mostly_0A, falls, 2},
    {"08 and 09, accepted", mostly_08_09, none, 0},
    {"08 and 09, last refused 2", mostly_08_09, unused_field, 2},
    {"08 and 09, last refused 3", mostly_08_09, reference, 3},
    {"08 and 09, last out of order", mostly_08_09, falls, 2},
};
enum { ROWS = sizeof rows / sizeof rows[0], SIZES = 4, REVERSED = 5 };

// The table of a row and a size, and the answer that document 01 has for it.
static word make(const struct row *r, int size) {
    frames = 0;
    r->make(1 << size);
    if (frames != GROUP << size) {
        printf("%s: %d frames\n", r->name, frames);
        exit(2);
    }
    r->spoil();
    return r->number ? r->number * 65536ul + frames - 1 : 0;
}

static int digit(byte c) { return c <= '9' ? c - '0' : c - 'A' + 10; }

static void make_small(int count, char **lines) {
    frames = count;
    memset(table, 0, 12 * count);
    EACH(f, count) for (int i = 0; lines[f][i]; i++) table[12 * f + i / 2] |= digit(lines[f][i]) << (i % 2 ? 0 : 4);
}

static void hold(const char *name, word got, word want) {
    if (got == want) return;
    printf("%s, %d frames: answered %lu, frame %lu\n", name, frames, got / 65536, got % 65536);
    exit(2);
}

static void call(const char *name, word want) {
    hold(name, xal_check(table, 12 * frames), want);
    printf("%s|%d\n", name, frames);
}

// Each table once, in the order of the rows; the worked table comes last.
static void calls(int count, char **lines) {
    EACH(r, ROWS) EACH(size, SIZES) {
        word want = make(&rows[r], size);
        call(rows[r].name, want);
    }
    make_small(count, lines);
    call("worked", 0);
}

// ---- times

enum { ROUNDS = 15 };

static void keep_best(double *best, double t) {
    if (*best == 0 || t < *best) *best = t;
}

// Each round times everything once, so that a slow moment of the machine does not fall on one size alone.
static void times(int count, char **lines) {
    static double best[ROWS][SIZES], small;
    EACH(round, ROUNDS) {
        EACH(r, ROWS) EACH(size, SIZES) {
            make(&rows[r], size);
            keep_best(&best[r][size], mean_time());
        }
        make_small(count, lines);
        keep_best(&small, mean_time());
    }
    EACH(r, ROWS) EACH(size, SIZES) printf("%s|%d|%.0f\n", rows[r].name, GROUP << size, best[r][size]);
    printf("worked|%d|%.0f\n", count, small);
}

// ---- stack: the call is made on a stack of its own, which is painted first

enum { ROOM = 256 * 1024, PAINT = 0xA5 };
static byte room[ROOM] __attribute__((aligned(4096)));

// What the call is made of: the library's functions, as a host calls them, on the table that stands there.
static uint32_t words[8192];
static byte output[4096], told[4096];
static int values; // of the source's event

static word checked(void) { return xal_check(table, 12 * frames); }
static word ran(void) {
    uint32_t moves, stop, untrue;
    size_t bytes;
    return xal_run(table, 12 * frames, words, 8192, 200, output, sizeof output, &moves, &stop, &bytes, &untrue);
}
static word ran_traced(void) {
    uint32_t moves, stop, untrue;
    size_t bytes, traced;
    return xal_run_traced(table, 12 * frames, words, 8192, 200, output, sizeof output, told, sizeof told, &moves, &stop, &bytes, &traced,
                          &untrue);
}
static word advanced(void) { return xal_advance(table, 12 * frames, words, 8192, 10); }
static word arrived(void) {
    static const int32_t given[4] = {21, 2, 3, 4};
    return xal_arrival(table, 12 * frames, words, 8192, 0, 5, given, values);
}

static word on_room(word (*call)(void)) {
    word answer;
    __asm__ volatile("mov %%rsp, %%rbx\n mov %[top], %%rsp\n call *%[call]\n mov %%rbx, %%rsp"
                     : "=a"(answer)
                     : [top] "r"(room + ROOM), [call] "r"(call)
                     : "rbx", "rcx", "rdx", "rsi", "rdi", "r8", "r9", "r10", "r11", "cc", "memory", "xmm0", "xmm1", "xmm2", "xmm3", "xmm4", "xmm5",
                       "xmm6", "xmm7", "xmm8", "xmm9", "xmm10", "xmm11", "xmm12", "xmm13", "xmm14", "xmm15");
    return answer;
}

// The bytes below the top that the call wrote to.
static word depth(const char *name, word (*call)(void), word want) {
    word i = 0;
    memset(room, PAINT, ROOM);
    hold(name, on_room(call), want);
    while (i < ROOM && room[i] == PAINT) i++;
    return ROOM - i;
}

static word greatest(word a, word b) { return a < b ? b : a; }

// The frames in the opposite order: nothing stands where it should.
static void reverse(void) {
    EACH(f, frames / 2) {
        byte kept[12], *p = table + 12 * f, *q = table + 12 * (frames - 1 - f);
        memcpy(kept, p, 12), memcpy(p, q, 12), memcpy(q, kept, 12);
    }
}

static void stack(void) {
    word most = 0;
    EACH(r, ROWS) {
        const word want = make(&rows[r], SIZES - 1);
        most = greatest(most, depth(rows[r].name, checked, want));
    }
    // Reversed, the event connections come first, and the first frame after them is of a lower kind.
    make(&rows[REVERSED], SIZES - 1);
    reverse();
    most = greatest(most, depth("reversed", checked, 2 * 65536 + 466 * (MOST / GROUP)));
    most = greatest(most, depth("reversed, advance", advanced, 2 * 65536 + 466 * (MOST / GROUP)));
    EACH(rows, 2) {
        frames = 0;
        values = rows ? 4 : 1;
        rows ? interfaces(25) : ring(60);
        xal_load(table, 12 * frames, words, 8192);
        most = greatest(most, depth("advance", advanced, 0));
        most = greatest(most, depth("arrival", arrived, 0));
        most = greatest(most, depth("run", ran, 0));
        most = greatest(most, depth("traced run", ran_traced, 0));
    }
    printf("%lu\n", most);
}

int main(int count, char **words) {
    const char *mode = count < 2 ? "" : words[1];
    if (!strcmp(mode, "calls")) calls(count - 2, words + 2);
    else if (!strcmp(mode, "times")) times(count - 2, words + 2);
    else if (!strcmp(mode, "stack")) stack();
    else return 2;
    return 0;
}
