// The third host of tools/bench: the library and the machine written by hand (tools/byhand.c) on the same networks.
//
//   bench-hand times      what their calls cost, in nanoseconds
//   bench-hand calls      makes each call once, for callgrind to count
//
// Prints a line for each network and order, grouped and shuffled. It stops with 2 where the two differ in an answer, a store or an output.
#include <stdio.h>

#include "bench-networks.h"
#include "bench-time.h"
#include "byhand.h"
#include "xaluudhiga.h"

int strcmp(const char *, const char *);
int memcmp(const void *, const void *, unsigned long);
void exit(int);

enum { WORDS = 2048, ROOM = 400000, LONG = 10000, SHORT = 20 };

// ---- the two, each with a store and an output buffer of its own

struct side {
    uint32_t store[WORDS];
    byte output[ROOM];
    uint64_t answer;
    struct hand_told told;
};

static struct side ours, theirs;
static struct hand_machine machine;

static void stop(const char *when, const char *what) {
    printf("%d frames, %s: %s\n", frames, when, what);
    exit(2);
}

// The calls that are measured. Each has the same effect on its side.
static void run_ours(uint32_t budget, size_t room) {
    ours.answer = xal_run(table, 12 * frames, ours.store, WORDS, budget, ours.output, room, &ours.told.moves, &ours.told.stop,
                          &ours.told.bytes, &ours.told.untrue);
}
static void run_decoded(uint32_t budget, size_t room) {
    theirs.answer = 0;
    theirs.told = hand_run(&machine, theirs.store, budget, theirs.output, room);
}
static void run_judging(uint32_t budget, size_t room) {
    theirs.answer = hand_run_judging(table, 12 * frames, theirs.store, WORDS, budget, theirs.output, room, &theirs.told);
}
static void check_ours(uint32_t budget, size_t room) { (void)budget, (void)room, ours.answer = xal_check(table, 12 * frames); }
static void check_theirs(uint32_t budget, size_t room) {
    unsigned frame, number = hand_check(table, 12 * frames, &frame);
    (void)budget, (void)room;
    theirs.answer = (uint64_t)number << 16 | frame;
}

static const struct measure {
    void (*ours)(uint32_t, size_t), (*theirs)(uint32_t, size_t);
    uint32_t budget;
} measures[] = {{run_ours, run_decoded, LONG}, {run_ours, run_judging, SHORT}, {check_ours, check_theirs, 0}};
enum { MEASURES = sizeof measures / sizeof measures[0] };

// What a call costs is told of a move, or of a frame.
static double share(int measure, const struct network *n) { return measures[measure].budget ? measures[measure].budget : (double)n->frames; }

// ---- held to the same

static void same(const char *when) {
    if (ours.answer != theirs.answer) stop(when, "not the same answer");
    if (ours.told.moves != theirs.told.moves || ours.told.stop != theirs.told.stop || ours.told.bytes != theirs.told.bytes)
        stop(when, "not the same moves, stop or bytes");
    if (ours.told.untrue != theirs.told.untrue) stop(when, "not the same untrue steps");
    if (memcmp(ours.store, theirs.store, sizeof ours.store) != 0) stop(when, "not the same store");
    if (memcmp(ours.output, theirs.output, sizeof ours.output) != 0) stop(when, "not the same output");
}

// A store in which the network has begun.
static void begin(const struct network *n) {
    static const int32_t given[4] = {21, -2, 3, 4};
    int source = 0, event = 0;
    while (table[12 * source] != 1 || table[12 * source + 1] != 3) source++;
    EACH(f, frames) {
        if (table[12 * f] == 3 && field(table + 12 * f, 0) == source) break;
        event += table[12 * f] == 3;
    }
    memset(&ours, 0, sizeof ours), memset(&theirs, 0, sizeof theirs);
    if (xal_load(table, 12 * frames, ours.store, WORDS) || xal_advance(table, 12 * frames, ours.store, WORDS, 10) ||
        xal_arrival(table, 12 * frames, ours.store, WORDS, event, 5, given, n->values))
        stop("load, advance and arrival", "refused");
    memcpy(theirs.store, ours.store, sizeof ours.store);
    hand_decode(table, 12 * frames, &machine);
}

// Runs of many lengths, with room for all and with less; then stores that differ in one word from one that is well formed, which both refuse
// or take; then a long run, whose bytes are told.
static void hold(const struct network *n, size_t *bytes) {
    static const uint32_t others[] = {1, 2, 0x7FFFFFFF, 0xFFFFFFFF};
    const int need = (int)xal_need(table, 12 * frames);
    begin(n);
    check_ours(0, 0), check_theirs(0, 0), same("a check");
    if (ours.answer != 0) stop("a check", "refused");
    EACH(i, 60) {
        const uint32_t budget = i < 40 ? i : LONG / 8 + i;
        const size_t room = i % 4 == 3 ? 20 + i : ROOM;
        run_ours(budget, room);
        if (i % 2) run_judging(budget, room);
        else run_decoded(budget, room);
        same("a run");
        // Time passes, and events that wait are older than those fired next.
        if (i % 5 == 0) ours.store[XAL_WORD_NOW]++, theirs.store[XAL_WORD_NOW]++;
    }
    EACH(i, 2 * need) EACH(k, 4) {
        uint32_t *word = &ours.store[i % need], kept = *word;
        *word = i < need ? others[k] : kept + others[k];
        theirs.store[i % need] = *word;
        run_ours(0, ROOM), run_judging(0, ROOM), same("a store with one other word");
        *word = theirs.store[i % need] = kept;
    }
    begin(n);
    run_ours(LONG, ROOM), run_decoded(LONG, ROOM), same("a long run");
    if (ours.told.moves != LONG || ours.told.stop != 2 || ours.told.bytes == 0) stop("a long run", "it stops by itself or has no record");
    *bytes = ours.told.bytes;
}

static void make(const struct network *n, int shuffled) {
    frames = 0;
    n->make(n->n);
    if (shuffled) shuffle();
    if (frames != n->frames) stop(n->name, "not as many frames as it should have");
}

static void name(const struct network *n, int shuffled) { printf("%s|%d|%s", n->name, n->frames, shuffled ? "shuffled" : "grouped"); }

static void hold_all(void) {
    EACH(i, NETWORKS) {
        size_t bytes[2];
        EACH(shuffled, 2) make(&networks[i], shuffled), hold(&networks[i], &bytes[shuffled]);
        if (bytes[0] != bytes[1]) stop("the two orders", "not the same bytes");
    }
}

// ---- times

struct best {
    double ours, theirs;
    int times;
};

static double time_of(void (*call)(uint32_t, size_t), uint32_t budget, int times) {
    const double start = now();
    EACH(i, times) call(budget, ROOM);
    return (now() - start) / times;
}

enum { ROUNDS = 7, LEAST = 5000000 };

// A sample is some milliseconds of the faster one, and the other makes as many calls right after it.
static void sample(const struct network *n, const struct measure *of, struct best *best) {
    if (best->times == 0) {
        begin(n);
        best->times = 1;
        while (time_of(of->theirs, of->budget, best->times) * best->times < LEAST) best->times *= 2;
    }
    begin(n);
    const double theirs_took = time_of(of->theirs, of->budget, best->times), ours_took = time_of(of->ours, of->budget, best->times);
    same("timed");
    if (best->ours == 0 || ours_took < best->ours) best->ours = ours_took;
    if (best->theirs == 0 || theirs_took < best->theirs) best->theirs = theirs_took;
}

// Each round times everything once, so that a slow moment of the machine does not fall on one network alone.
static void times(void) {
    static struct best best[NETWORKS][2][MEASURES];
    EACH(round, ROUNDS) EACH(i, NETWORKS) EACH(shuffled, 2) {
        make(&networks[i], shuffled);
        EACH(m, MEASURES) sample(&networks[i], &measures[m], &best[i][shuffled][m]);
    }
    EACH(i, NETWORKS) EACH(shuffled, 2) {
        name(&networks[i], shuffled);
        EACH(m, MEASURES) {
            const struct best *b = &best[i][shuffled][m];
            printf("|%.4g|%.4g", b->ours / share(m, &networks[i]), b->theirs / share(m, &networks[i]));
        }
        printf("\n");
    }
}

// callgrind counts what is done in here.
void counted(void (*call)(uint32_t, size_t), uint32_t budget);
__attribute__((noinline)) void counted(void (*call)(uint32_t, size_t), uint32_t budget) { call(budget, ROOM); }

static void calls(void) {
    EACH(i, NETWORKS) EACH(shuffled, 2) {
        make(&networks[i], shuffled);
        name(&networks[i], shuffled);
        EACH(m, MEASURES) {
            begin(&networks[i]);
            counted(measures[m].ours, measures[m].budget);
            counted(measures[m].theirs, measures[m].budget);
            same("counted");
            printf("|%g", share(m, &networks[i]));
        }
        printf("\n");
    }
}

int main(int count, char **words) {
    const char *mode = count == 2 ? words[1] : "";
    if (!strcmp(mode, "times")) hold_all(), times();
    else if (!strcmp(mode, "calls")) calls();
    else return 2;
    return 0;
}
