/*
 * Makes the calls that it reads on standard input and writes what they answered and left to standard output, for tools/compare-c.
 *
 * A request is eight numbers of 8 bytes, low byte first (call, table bytes, store words, values, output bytes, trace bytes, number, time),
 * and then the table, the store, the values, the output buffer and the trace room, which for a reading holds the text. The number is an
 * arrival's event, a view's kind or action, or how many frames a reading is to show; the time is also a run's budget. The reply is nine
 * numbers (answer, moves, stop number, bytes or start, trace bytes, frames shown, line, untrue steps, whether the bytes around what was
 * lent are as they were), those that the call does not tell 0, and then all five as the call left them. It ends at the end of its input.
 */
#include <stdint.h>
#include <stdio.h>

#include "xaluudhiga.h"

enum { CHECK, NEED, LOAD, ADVANCE, ARRIVAL, RUN, FRAMES_OF, STEPS_OF, RUN_TRACED, SHOW };

/* ---- What is lent to a call lies between two stretches of guard bytes, which the call must leave alone. */
enum { GUARD = 64, GUARD_BYTE = 0xA5, MOST = 65536 };

struct area {
    size_t bytes;
    union {
        uint8_t byte[GUARD + MOST + GUARD];
        uint32_t word; /* for the alignment */
    } at;
};

static struct area table, store, values, output, trace;

static void *lent(struct area *area) {
    return area->at.byte + GUARD;
}

/* Reads so many bytes into an area; 0 where they are too many or not there. */
static int take(struct area *area, uint64_t bytes) {
    if (bytes > MOST)
        return 0;
    area->bytes = bytes;
    for (int i = 0; i < GUARD; i++)
        area->at.byte[i] = area->at.byte[GUARD + bytes + i] = GUARD_BYTE;
    return fread(lent(area), 1, bytes, stdin) == bytes;
}

static int guarded(const struct area *area) {
    for (int i = 0; i < GUARD; i++)
        if (area->at.byte[i] != GUARD_BYTE || area->at.byte[GUARD + area->bytes + i] != GUARD_BYTE)
            return 0;
    return 1;
}

static void give(struct area *area) {
    fwrite(lent(area), 1, area->bytes, stdout);
}

/* ---- A call */

struct request {
    uint64_t call, table_bytes, store_words, value_count, output_bytes, trace_bytes, number, time;
};

struct reply {
    uint64_t answer, moves, stop, bytes, traced, shown, line, untrue, guarded;
};

/* What a call tells by pointers. Each word is one that no call tells, so that one that is not told shows. */
struct told {
    uint32_t moves, stop;
    size_t bytes, traced, shown, line;
    uint32_t untrue;
};

static const struct told untold = {0xDEADDEAD, 0xDEADDEAD, 0xDEADDEAD, 0xDEADDEAD, 0xDEADDEAD, 0xDEADDEAD, 0xDEADDEAD};

static uint64_t call(const struct request *r, struct told *told) {
    const uint8_t *t = lent(&table);
    size_t n = table.bytes, words = r->store_words;
    uint32_t *s = lent(&store), time = (uint32_t)r->time;
    switch (r->call) {
    case CHECK: return xal_check(t, n);
    case NEED: return xal_need(t, n);
    case LOAD: return xal_load(t, n, s, words);
    case ADVANCE: return xal_advance(t, n, s, words, time);
    case ARRIVAL: return xal_arrival(t, n, s, words, r->number, time, lent(&values), r->value_count);
    case RUN:
        return xal_run(t, n, s, words, time, lent(&output), output.bytes, &told->moves, &told->stop, &told->bytes, &told->untrue);
    case FRAMES_OF: return xal_frames_of(t, n, r->number, &told->bytes);
    case STEPS_OF: return xal_steps_of(t, n, r->number, &told->bytes);
    case RUN_TRACED:
        return xal_run_traced(t, n, s, words, time, lent(&output), output.bytes, lent(&trace), trace.bytes, &told->moves, &told->stop,
                              &told->bytes, &told->traced, &told->untrue);
    case SHOW: return xal_show(t, n, s, words, lent(&trace), trace.bytes, r->number, &told->shown, &told->line);
    }
    return 0;
}

static struct reply make(const struct request *r) {
    struct told told = untold;
    struct reply reply = {call(r, &told), 0, 0, 0, 0, 0, 0, 0, 0};
    int traced = r->call == RUN_TRACED, run = traced || r->call == RUN;
    if (run) {
        reply.moves = told.moves;
        reply.stop = told.stop;
        reply.untrue = told.untrue;
    }
    if (run || r->call == FRAMES_OF || r->call == STEPS_OF)
        reply.bytes = told.bytes;
    if (traced)
        reply.traced = told.traced;
    if (r->call == SHOW) {
        reply.shown = told.shown;
        reply.line = told.line;
    }
    reply.guarded = guarded(&table) && guarded(&store) && guarded(&values) && guarded(&output) && guarded(&trace);
    return reply;
}

/* Reads all that a call is lent; 0 where it is too long or not there. */
static int take_all(const struct request *r) {
    return take(&table, r->table_bytes) && take(&store, 4 * r->store_words) && take(&values, 4 * r->value_count) &&
           take(&output, r->output_bytes) && take(&trace, r->trace_bytes);
}

int main(void) {
    struct request r;
    while (fread(&r, sizeof r, 1, stdin) == 1) {
        if (!take_all(&r)) {
            fprintf(stderr, "a request is too long or cut off\n");
            return 2;
        }
        struct reply reply = make(&r);
        fwrite(&reply, sizeof reply, 1, stdout);
        give(&table);
        give(&store);
        give(&values);
        give(&output);
        give(&trace);
        fflush(stdout);
    }
    return 0;
}
