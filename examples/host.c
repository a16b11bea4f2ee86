/*
 * A host for a stairwell light: a push button switches the lamps of three floors on, and they go off so many ticks after the last push.
 *
 * It does what every host does: check the table and lend a store (main), let time pass to what is next due or arrives (main), run in
 * slices, so that a controller gets to its other work between them (settle), read the records that the network's sinks write
 * (print_records), and look whether results were clipped (settle, main).
 *
 *     cc -std=c99 -Iinclude examples/host.c crates/xaluudhiga/out/libxaluudhiga.a -o host
 */
#include <stdint.h>
#include <stdio.h>

#include "xaluudhiga.h"

/* ---- The network, as a compiler would write it */

#define HALF(n) (uint8_t)((n) >> 8), (uint8_t)((n) & 0xFF)
#define FRAME(kind, flag, a, b, c, d, e) kind, flag, HALF(a), HALF(b), HALF(c), HALF(d), HALF(e)

enum { PUSH = 0, BURNT = 9 }; /* the event output by which a push arrives, and a variable that this host reads */

static const uint8_t table[] = {
    FRAME(XAL_KIND_ELEMENT, XAL_SORT_SOURCE, 0, 0, 0, 0, 0),          /* element 0: the button */
    FRAME(XAL_KIND_ELEMENT, XAL_SORT_BASIC, 1, 0, 0, 0, 0),           /* element 1: the light's control, at first in state 0 */
    FRAME(XAL_KIND_ELEMENT, XAL_SORT_DELAY, 2, 0, 0, 0, 0),           /* element 2: the timer */
    FRAME(XAL_KIND_ELEMENT, XAL_SORT_SINK, 3, 0, 0, 0, 0),            /* elements 3, 4 and 5: the lamps */
    FRAME(XAL_KIND_ELEMENT, XAL_SORT_SINK, 4, 0, 0, 0, 0),
    FRAME(XAL_KIND_ELEMENT, XAL_SORT_SINK, 5, 0, 0, 0, 0),
    FRAME(XAL_KIND_EVENT_INPUT, 0, 1, 0, 0, 0, 0),                    /* event input 0: PUSHED of the control; the flag is the local priority */
    FRAME(XAL_KIND_EVENT_INPUT, 1, 1, 0, 0, 0, 0),                    /* event input 1: ELAPSED of the control */
    FRAME(XAL_KIND_EVENT_INPUT, 1, 2, 0, 0, 0, 0),                    /* event input 2: START of the timer */
    FRAME(XAL_KIND_EVENT_INPUT, 0, 2, 0, 0, 0, 0),                    /* event input 3: STOP of the timer; where both wait it is taken first */
    FRAME(XAL_KIND_EVENT_INPUT, 0, 3, 0, 0, 0, 0),                    /* event inputs 4, 5 and 6: SET of the lamps */
    FRAME(XAL_KIND_EVENT_INPUT, 0, 4, 0, 0, 0, 0),
    FRAME(XAL_KIND_EVENT_INPUT, 0, 5, 0, 0, 0, 0),
    FRAME(XAL_KIND_EVENT_OUTPUT, 0, 0, 0, 0, 0, 0),                   /* event output 0: PUSH of the button */
    FRAME(XAL_KIND_EVENT_OUTPUT, 0, 1, 0, 0, 0, 0),                   /* event output 1: SWITCHED of the control */
    FRAME(XAL_KIND_EVENT_OUTPUT, 0, 2, 0, 0, 0, 0),                   /* event output 2: ELAPSED of the timer */
    FRAME(XAL_KIND_VARIABLE, XAL_ROLE_OUTPUT, 0, 0, 0, 0, 0),         /* variable 0: TIME of the button */
    FRAME(XAL_KIND_VARIABLE, XAL_ROLE_OUTPUT, 1, 0, 0, 0, 0),         /* variable 1: LIT of the control */
    FRAME(XAL_KIND_VARIABLE, XAL_ROLE_INTERNAL, 1, 0, 0, 0, 0),       /* variable 2: OFF, starts as 0 */
    FRAME(XAL_KIND_VARIABLE, XAL_ROLE_INTERNAL, 1, 0, 1, 0, 0),       /* variable 3: ON, starts as 1 */
    FRAME(XAL_KIND_VARIABLE, XAL_ROLE_INPUT, 2, 0, 0, 0, 0),          /* variable 4: DT of the timer */
    FRAME(XAL_KIND_VARIABLE, XAL_ROLE_INPUT, 3, 0, 0, 0, 0),          /* variables 5, 6 and 7: LIT of the lamps */
    FRAME(XAL_KIND_VARIABLE, XAL_ROLE_INPUT, 4, 0, 0, 0, 0),
    FRAME(XAL_KIND_VARIABLE, XAL_ROLE_INPUT, 5, 0, 0, 0, 0),
    FRAME(XAL_KIND_VARIABLE, XAL_ROLE_INPUT, 1, 0, 0, 0, 0),          /* variable 8: ASKED of the control */
    FRAME(XAL_KIND_VARIABLE, XAL_ROLE_INTERNAL, 1, 0x7FFF, 0xFEA4, 0, 0), /* variable 9: BURNT, ticks of light so far, starts as 2147483300 */
    FRAME(XAL_KIND_ASSOCIATION, XAL_WITH_INPUT, 0, 8, 0, 0, 0),       /* PUSHED samples ASKED */
    FRAME(XAL_KIND_ASSOCIATION, XAL_WITH_INPUT, 2, 4, 0, 0, 0),       /* START samples DT */
    FRAME(XAL_KIND_ASSOCIATION, XAL_WITH_INPUT, 4, 5, 0, 0, 0),       /* each SET samples its LIT */
    FRAME(XAL_KIND_ASSOCIATION, XAL_WITH_INPUT, 5, 6, 0, 0, 0),
    FRAME(XAL_KIND_ASSOCIATION, XAL_WITH_INPUT, 6, 7, 0, 0, 0),
    FRAME(XAL_KIND_ASSOCIATION, XAL_WITH_OUTPUT, 0, 0, 0, 0, 0),      /* PUSH carries TIME */
    FRAME(XAL_KIND_ASSOCIATION, XAL_WITH_OUTPUT, 1, 1, 0, 0, 0),      /* SWITCHED carries LIT */
    FRAME(XAL_KIND_STATE, 0, 1, 0, 0, 0, 0),                          /* state 0: dark */
    FRAME(XAL_KIND_STATE, 0, 1, 0, 0, 0, 0),                          /* state 1: lit */
    FRAME(XAL_KIND_TRANSITION, XAL_GUARD_ALWAYS, 0, 1, 0, 0, 0),      /* dark to lit on PUSHED */
    FRAME(XAL_KIND_TRANSITION, XAL_GUARD_ALWAYS, 1, 0, 1, 0, 0),      /* lit to dark on ELAPSED */
    FRAME(XAL_KIND_ACTION, 0, 0, 0, 1, 1, 0),                         /* dark: step 0, then SWITCHED */
    FRAME(XAL_KIND_ACTION, 0, 1, 1, 2, 1, 0),                         /* lit: steps 1 and 2, then SWITCHED */
    FRAME(XAL_KIND_STEP, XAL_OP_COPY, 1, 2, 0, 0, 0),                 /* step 0: LIT = OFF */
    FRAME(XAL_KIND_STEP, XAL_OP_COPY, 1, 3, 0, 0, 0),                 /* step 1: LIT = ON */
    FRAME(XAL_KIND_STEP, XAL_OP_ADD, 9, 9, 8, 0, 0),                  /* step 2: BURNT = BURNT + ASKED */
    FRAME(XAL_KIND_EVENT_CONNECTION, 0, 0, 0, 0, 0, 0),               /* PUSH to PUSHED */
    FRAME(XAL_KIND_EVENT_CONNECTION, 0, 0, 3, 0, 0, 0),               /* PUSH to STOP and to START: each push starts the timer anew, since a */
    FRAME(XAL_KIND_EVENT_CONNECTION, 0, 0, 2, 0, 0, 0),               /* START alone has no effect while it runs */
    FRAME(XAL_KIND_EVENT_CONNECTION, 0, 1, 4, 0, 0, 0),               /* SWITCHED to each SET */
    FRAME(XAL_KIND_EVENT_CONNECTION, 0, 1, 5, 0, 0, 0),
    FRAME(XAL_KIND_EVENT_CONNECTION, 0, 1, 6, 0, 0, 0),
    FRAME(XAL_KIND_EVENT_CONNECTION, 0, 2, 1, 0, 0, 0),               /* the timer's ELAPSED to the control's */
    FRAME(XAL_KIND_DATA_CONNECTION, 0, 0, 4, 0, 0, 0),                /* TIME to DT and to ASKED */
    FRAME(XAL_KIND_DATA_CONNECTION, 0, 0, 8, 0, 0, 0),
    FRAME(XAL_KIND_DATA_CONNECTION, 0, 1, 5, 0, 0, 0),                /* the control's LIT to each lamp's */
    FRAME(XAL_KIND_DATA_CONNECTION, 0, 1, 6, 0, 0, 0),
    FRAME(XAL_KIND_DATA_CONNECTION, 0, 1, 7, 0, 0, 0),
};

/* A host that knows its table lends exactly its need; one that takes any table lends XAL_MAX_NEED words. */
enum { ELEMENTS = 6, EVENT_INPUTS = 7, VARIABLES = 10, STORE_WORDS = XAL_NEED(ELEMENTS, EVENT_INPUTS, VARIABLES) };
static uint32_t store[STORE_WORDS];

/* This host reads words of the store (settle, main), so it says for which layout it was written. */
#if XAL_STORE_LAYOUT != 3
#error "this host reads the store by layout 3"
#endif

/* What a table and a store are in each call. */
#define NETWORK table, sizeof table, store, STORE_WORDS

/* ---- Calls that this host knows to be right: one that is refused shows a fault of the host or of the table */

static int refused;

static void judge(const char *call, uint64_t answer) {
    if (answer != XAL_DONE) {
        printf("%s: refused %u, frame %u\n", call, xal_number(answer), xal_frame(answer));
        refused = 1;
    }
}

/* ---- Records */

static unsigned number_at(const uint8_t *p, int bytes) {
    unsigned n = 0;
    while (bytes-- > 0)
        n = n << 8 | *p++;
    return n;
}

/* The stretch of the table that holds the associations. It is asked for once: each call checks the whole table first. */
static const uint8_t *associations, *associations_end;

static void find_associations(void) {
    size_t start, bytes = xal_frames_of(table, sizeof table, XAL_KIND_ASSOCIATION, &start);
    associations = table + start;
    associations_end = associations + bytes;
}

/* How many values the records of an event input have: its associations. */
static unsigned values_of(unsigned event) {
    unsigned count = 0;
    for (const uint8_t *frame = associations; frame != associations_end; frame += XAL_FRAME_BYTES)
        if (frame[1] == XAL_WITH_INPUT && number_at(frame + 2, 2) == event)
            count++;
    return count;
}

static void print_records(const uint8_t *record, size_t bytes) {
    const uint8_t *end = record + bytes;
    while (record != end) {
        unsigned event = number_at(record + 2, 2), values = values_of(event);
        printf("%4u  element %u, event input %u, born %u, last update %u:", number_at(record + 12, 4), number_at(record, 2), event,
               number_at(record + 4, 4), number_at(record + 8, 4));
        record += XAL_RECORD_HEAD_BYTES;
        for (; values > 0; values--, record += XAL_RECORD_VALUE_BYTES)
            printf(" %d", (int)number_at(record, 4));
        printf("\n");
    }
}

/* ---- Running */

/*
 * Runs in slices of 20 moves until no move is left. The output buffer has room for any one record, so each slice goes on; here it has room
 * for two, and a third stops the run, to go on in the next slice.
 */
static void settle(void) {
    enum { SLICE = 20 };
    uint8_t output[XAL_MAX_RECORD_BYTES];
    uint32_t moves, stop, untrue;
    size_t bytes;
    do {
        judge("run", xal_run(NETWORK, SLICE, output, sizeof output, &moves, &stop, &bytes, &untrue));
        printf("%4u  %u moves, %u of them untrue, stopped with %u\n", (unsigned)store[XAL_WORD_NOW], (unsigned)moves, (unsigned)untrue,
               (unsigned)stop);
        print_records(output, bytes);
        /* A controller does its other work here. */
    } while (stop == XAL_STOP_BUDGET || stop == XAL_STOP_ROOM);
}

/* What a clock and an input card would give: pushes, each with the time for which the lamps are to burn. */
static const struct {
    uint32_t at;
    int32_t ticks;
} pushes[] = {{10, 300}, {200, 300}, {900, 50}};
enum { PUSHES = sizeof pushes / sizeof pushes[0] };

int main(void) {
    uint64_t verdict = xal_check(table, sizeof table);
    size_t need = xal_need(table, sizeof table);
    printf("table of %u frames: number %u, need %u words\n", (unsigned)(sizeof table / XAL_FRAME_BYTES), xal_number(verdict), (unsigned)need);
    if (need != STORE_WORDS) {
        printf("the header counts %u words: it is of another version than the library\n", (unsigned)STORE_WORDS);
        return 1;
    }
    find_associations();
    judge("load", xal_load(NETWORK));

    int next = 0;
    while (!refused) {
        /* Here it would sleep, until the next due time or the next push, whichever comes first. No advance may pass that time (refusal 8). */
        uint32_t due = store[XAL_WORD_NEXT_DUE];
        int waits = store[XAL_WORD_DUE];
        if (waits && (next == PUSHES || due <= pushes[next].at)) {
            judge("advance", xal_advance(NETWORK, due)); /* fires the delays that are due */
        } else if (next < PUSHES) {
            judge("advance", xal_advance(NETWORK, pushes[next].at));
            judge("arrival", xal_arrival(NETWORK, PUSH, pushes[next].at, &pushes[next].ticks, 1));
            next++;
        } else {
            break; /* nothing is to come */
        }
        settle();
    }

    /* A value that is stuck at the end of its range shows here: BURNT could not hold the ticks of the last push. */
    printf("untrue steps since load: %u, BURNT is %d\n", (unsigned)store[XAL_WORD_UNTRUE],
           (int)store[XAL_VARIABLE_AT(ELEMENTS, EVENT_INPUTS, BURNT) + XAL_VARIABLE_VALUE]);

    /* What cannot be done is refused, and leaves the store as it is: time does not run backwards. */
    printf("advance to 0: refused %u at now %u\n", xal_number(xal_advance(NETWORK, 0)), (unsigned)store[XAL_WORD_NOW]);
    return refused;
}
