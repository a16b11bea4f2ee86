/*
 * Xaluudhiga: a runtime for IEC 61499 function blocks.
 *
 * A network of function blocks comes as a table of 12-byte frames, made by a compiler. The library checks the table, loads a store for it
 * and runs it by three calls: advance (time passes), arrival (an event comes from outside) and run (make moves). It has no memory of its
 * own, takes none from a heap and makes no system call: all that it knows is in the table and the store that the host lends. So a host may
 * keep any number of stores, copy them, and go on from a copy. Of the C library it needs memset alone.
 *
 * Every call is proved to do what the rules (docs/RULES.md) say, for every table, store, time and value list, and to read and write
 * nothing but what it is lent. None can be called at a wrong moment: what a call cannot do it refuses, by a number, and a refused
 * call leaves the store, the output buffer and the trace room exactly as they came.
 *
 * What the caller must keep to, since C cannot check it:
 *   - each pointer is valid for the length that follows it, aligned for its type, and not null, also where the length is 0;
 *   - lengths count elements: bytes of a table, an output buffer, a trace room and a text, 32-bit words of a store, values of an arrival;
 *   - what is lent to one call does not overlap, and nobody else changes any of it, or reads what the call writes, while the call runs.
 *
 * Link with libxaluudhiga.a (x86-64 Linux). C99; C++ may include this file too.
 */
#ifndef XALUUDHIGA_H
#define XALUUDHIGA_H

#include <stddef.h>
#include <stdint.h>

#ifdef __cplusplus
extern "C" {
#endif

/* ---- The table */

enum {
    XAL_FRAME_BYTES = 12,      /* kind, flag, then a, b, c, d, e of two bytes each, high byte first */
    XAL_MAX_TABLE_BYTES = 49152,
    XAL_MAX_FRAMES = 4096,
    XAL_MAX_ELEMENTS = 64,
    XAL_MAX_EVENT_INPUTS = 256,
    XAL_MAX_EVENT_OUTPUTS = 256,
    XAL_MAX_VARIABLES = 512,
    XAL_MAX_STATES = 512,
    XAL_MAX_TRANSITIONS = 1024,
    XAL_MAX_ACTION_STEPS = 64, /* steps of one action */
    XAL_MAX_EVENT_VARIABLES = 8, /* associations of one event: so many values has an arrival or a record at most */
    XAL_NONE = 0xFFFF          /* "none" in a field that may name nothing */
};

/* The kind of a frame. */
enum {
    XAL_KIND_ELEMENT = 0x01,
    XAL_KIND_EVENT_INPUT = 0x02,
    XAL_KIND_EVENT_OUTPUT = 0x03,
    XAL_KIND_VARIABLE = 0x04,
    XAL_KIND_ASSOCIATION = 0x05,
    XAL_KIND_STATE = 0x06,
    XAL_KIND_TRANSITION = 0x07,
    XAL_KIND_ACTION = 0x08,
    XAL_KIND_STEP = 0x09,
    XAL_KIND_EVENT_CONNECTION = 0x0A,
    XAL_KIND_DATA_CONNECTION = 0x0B
};

/* The flag of an element: its sort. */
enum {
    XAL_SORT_BASIC = 0,     /* has a state chart */
    XAL_SORT_INTERFACE = 1, /* passes events and values on */
    XAL_SORT_DELAY = 2,     /* event inputs START and STOP, one event output, one input variable DT; a START while it runs has no effect */
    XAL_SORT_SOURCE = 3,    /* its events arrive from outside */
    XAL_SORT_SINK = 4       /* its events leave as records */
};

/* The flag of a variable: its role. */
enum {
    XAL_ROLE_INPUT = 0,
    XAL_ROLE_OUTPUT = 1,
    XAL_ROLE_INTERNAL = 2
};

/* The flag of an association (WITH): which of its element's sides it joins. */
enum {
    XAL_WITH_INPUT = 0, /* an event input and an input variable */
    XAL_WITH_OUTPUT = 1 /* an event output and an output variable */
};

/* The flag of a transition: its guard, over the values of the variables d and e. */
enum {
    XAL_GUARD_ALWAYS = 0, /* d and e are zero and not read */
    XAL_GUARD_EQUALS = 1,
    XAL_GUARD_DIFFERS = 2,
    XAL_GUARD_BELOW = 3,  /* d is below e */
    XAL_GUARD_AT_MOST = 4 /* d is at most e */
};

/* The flag of a step: its operation, from the values of the variables b and c to the variable a. */
enum {
    XAL_OP_COPY = 0,     /* b; c is zero */
    XAL_OP_ADD = 1,
    XAL_OP_SUBTRACT = 2, /* c from b */
    XAL_OP_NEGATE = 3,   /* b; c is zero */
    XAL_OP_MULTIPLY = 4,
    XAL_OP_DIVIDE = 5,   /* b by c, toward zero; 0 where c is 0 */
    XAL_OP_MINIMUM = 6,
    XAL_OP_MAXIMUM = 7,
    XAL_OP_AGE = 8       /* now less the birth of the current event; b and c are zero */
};

/* ---- Answers
 *
 * A call answers 0 when it is done, and else number * 65536 + frame: the refusal number, and for XAL_REFUSED_FRAME to XAL_REFUSED_NETWORK
 * the lowest faulty frame of the table, counted from 0.
 */
enum {
    XAL_DONE = 0,
    XAL_REFUSED_LENGTH = 1,      /* the table's length is 0, no multiple of 12, or above 49,152 */
    XAL_REFUSED_FRAME = 2,       /* a frame's kind, flag, step count or unused field is wrong, or it is one too many of its kind */
    XAL_REFUSED_REFERENCE = 3,   /* a reference is wrong */
    XAL_REFUSED_NETWORK = 4,     /* a network rule is broken */
    XAL_REFUSED_SHORT_STORE = 5, /* the store is shorter than its need */
    XAL_REFUSED_STORE = 6,       /* the store is not well formed */
    XAL_REFUSED_TIME = 7,        /* advance to a time before now or above XAL_MAX_TIME */
    XAL_REFUSED_DUE = 8,         /* advance beyond the due time of a delay: advance to XAL_WORD_NEXT_DUE first */
    XAL_REFUSED_EVENT = 9,       /* arrival names no event output of a source */
    XAL_REFUSED_BIRTH = 10,      /* arrival born after now */
    XAL_REFUSED_VALUES = 11      /* the number of values differs from the event's associations */
};

/* The refusal number of an answer: XAL_DONE or one of the above. */
static inline unsigned xal_number(uint64_t answer) {
    return (unsigned)(answer >> 16);
}

/* The faulty frame that an answer names, 0 where it names none. */
static inline unsigned xal_frame(uint64_t answer) {
    return (unsigned)(answer & 0xFFFF);
}

/* ---- The store
 *
 * 32-bit words; signed values in two's complement. A store is made by xal_load and kept by the host, who may read any word of it: the first
 * by XAL_WORD_.., then for each element, event input and variable those that start at XAL_ELEMENT_AT, XAL_EVENT_INPUT_AT and XAL_VARIABLE_AT.
 * Words past the need are never touched by any call.
 *
 * XAL_STORE_LAYOUT is the number of this layout. It rises with each version in which a word moves or takes another meaning. So
 *   - a host that reads words says which layout it was written for, and does not compile with another:
 *         #if XAL_STORE_LAYOUT != 3
 *         #error "this host reads the store by layout 3"
 *         #endif
 *   - a host that keeps stores longer than it runs, or sends them, writes the number beside each and loads anew where it is another;
 *   - header and library are of one version. A host that is linked with a library of another mostly sees it at its start, by
 *     xal_need(table) != XAL_NEED(its numbers of frames).
 */
#define XAL_STORE_LAYOUT 3

enum {
    XAL_WORD_NOW = 0,
    XAL_WORD_RUNNING_ELEMENT = 1, /* plus 1, or 0 */
    XAL_WORD_CURRENT_EVENT = 2,   /* plus 1, or 0 */
    XAL_WORD_BIRTH = 3,           /* of the current event */
    XAL_WORD_MODE = 4,            /* XAL_MODE_.. */
    XAL_WORD_LIVE = 5,            /* 1 until the current event has enabled a transition */
    XAL_WORD_ACTION = 6,          /* of the present state, from 1; 0 for none */
    XAL_WORD_STEP = 7,
    XAL_WORD_OVERWRITTEN = 8,     /* events that came to an input that waited already; stops at 4,294,967,295 */
    XAL_WORD_DUE = 9,             /* 1 where a due flag of some element is set, else 0 */
    XAL_WORD_NEXT_DUE = 10,       /* the earliest due time of these (see below), or 0; it may be 0 where XAL_WORD_DUE is 1 */
    XAL_WORD_UNTRUE = 11,         /* steps since load whose result was not the true one (see below); stops at 4,294,967,295 */
    XAL_STORE_HEAD = 16,          /* words before those of the elements; 12 to 15 are zero */
    XAL_ELEMENT_WORDS = 3,
    XAL_ELEMENT_STATE = 0,        /* chart state of a basic element, else 0 */
    XAL_ELEMENT_DUE_FLAG = 1,     /* 1 on a delay that is running, else 0 */
    XAL_ELEMENT_DUE_TIME = 2,
    XAL_EVENT_INPUT_WORDS = 3,
    XAL_EVENT_INPUT_WAITING = 0,  /* 1 or 0 */
    XAL_EVENT_INPUT_BIRTH = 1,
    XAL_EVENT_INPUT_LAST_UPDATE = 2,
    XAL_VARIABLE_WORDS = 2,
    XAL_VARIABLE_VALUE = 0,
    XAL_VARIABLE_BUFFER = 1       /* 0 unless an input */
};

enum {
    XAL_MODE_IDLE = 0,
    XAL_MODE_CHARTS = 1,
    XAL_MODE_ACTS = 2
};

/* Where the words of an element, of an event input and of a variable start, by its id and the number of elements and event inputs. */
#define XAL_ELEMENT_AT(element) ((size_t)XAL_STORE_HEAD + (size_t)XAL_ELEMENT_WORDS * (size_t)(element))
#define XAL_EVENT_INPUT_AT(elements, event_input) (XAL_ELEMENT_AT(elements) + (size_t)XAL_EVENT_INPUT_WORDS * (size_t)(event_input))
#define XAL_VARIABLE_AT(elements, event_inputs, variable) \
    (XAL_EVENT_INPUT_AT(elements, event_inputs) + (size_t)XAL_VARIABLE_WORDS * (size_t)(variable))

/* The need: so many words a store must have, by the number of frames of three kinds. A constant where the numbers are. */
#define XAL_NEED(elements, event_inputs, variables) XAL_VARIABLE_AT(elements, event_inputs, variables)

/* The need of the greatest table: a store of so many words suits every table. */
#define XAL_MAX_NEED XAL_NEED(XAL_MAX_ELEMENTS, XAL_MAX_EVENT_INPUTS, XAL_MAX_VARIABLES)

/* ---- Times are whole ticks, 0 to this. */
#define XAL_MAX_TIME UINT32_C(2147483647)

/* ---- Records
 *
 * Taking an event of a sink writes a record, each number high byte first: element and event input (2 bytes each), birth, last update and
 * now (4 each), then the values of the event's associated variables in table order (4 each, signed).
 */
enum {
    XAL_RECORD_HEAD_BYTES = 16,
    XAL_RECORD_VALUE_BYTES = 4,
    XAL_MAX_RECORD_BYTES = 48 /* an output buffer of so many bytes has room for any record */
};

/* ---- Why a run stopped */
enum {
    XAL_STOP_IDLE = 1,   /* no move exists: only advance and arrival can go on */
    XAL_STOP_BUDGET = 2, /* the budget is used and a move exists */
    XAL_STOP_ROOM = 3,   /* the next move's record has no room in the output buffer; the move was not made */
    XAL_STOP_TRACE = 4   /* traced runs only: the next move's frames have no room in the trace room; the move was not made */
};

/* ---- The next due time
 *
 * XAL_WORD_DUE and XAL_WORD_NEXT_DUE are right after every call: no host has to look through the elements. Where XAL_WORD_DUE is 0 nothing
 * happens by itself, and a host sleeps until an event arrives. Where it is 1, a host sleeps until XAL_WORD_NEXT_DUE or an arrival, whichever
 * comes first. Then it advances to that moment, which the next due time may be and must not be past (XAL_REFUSED_DUE), and runs:
 *         until = store[XAL_WORD_DUE] ? store[XAL_WORD_NEXT_DUE] : forever;
 *         now = sleep_until(until);                     // or until something arrives, and tells the time, which is at most `until`
 *         xal_advance(.., now); xal_arrival(..) for what arrived; xal_run(..) until it stops with XAL_STOP_IDLE
 * A time above XAL_MAX_TIME is stored there too, and is never reached. A host that woke late advances to XAL_WORD_NEXT_DUE, runs, and looks
 * again, until it is at its own time: then nothing fires late or is left out.
 *
 * The two words belong to the due words of the elements. A store in which they say something else is not well formed (XAL_REFUSED_STORE).
 */

/* ---- Untrue steps
 *
 * A step is untrue where its result is not what the operation gives in whole numbers: the result lay outside the signed range and became
 * the nearest end, or the divisor was 0 and the result is 0 (also of 0 by 0). A result that lies exactly at an end is true, and so is a
 * quotient that was rounded toward zero. Each run tells how many untrue steps it made; XAL_WORD_UNTRUE has those of all runs since load, up
 * to its end. Where the count rises, a value that stands at an end of its range may be stuck there.
 */

/* ---- Traces
 *
 * A traced run writes a frame of XAL_FRAME_BYTES for each change: XAL_TRACE, the kind, then a, b, c, d, e of two bytes each, high byte
 * first. a is the element; b the id of the variable, event or transition that the kind names, else 0; c and d the high and low half of the
 * new value, 1 for the kinds STARTED to ENABLED; e is 0. The first four kinds and the last two stand only where the value differs from
 * before the move. The frames of a move stand by kind, then id. A move has at most 20; one that only goes on to the next transition has
 * none.
 *
 * Lend a trace room of at least XAL_TRACE_MOST bytes: a smaller one may be too small for a move, and then no run gets past it.
 *
 * The debugger's file has a line for each frame: its 24 digits, upper case, ended by a line feed. xal_show reads such text.
 */
enum {
    XAL_TRACE = 0x84,
    XAL_TRACE_STATE = 0,    /* chart state; the value is the state's id */
    XAL_TRACE_INTERNAL = 1, /* value of an internal variable, b; note that these three are not the numbers of XAL_ROLE_.. */
    XAL_TRACE_INPUT = 2,    /* value of an input variable, b */
    XAL_TRACE_OUTPUT = 3,   /* value of an output variable, b */
    XAL_TRACE_STARTED = 4,  /* an event of the element was taken */
    XAL_TRACE_FINISHED = 5, /* the element is done with it: at once where it has no state chart */
    XAL_TRACE_SELECTED = 6, /* the event input, b, whose event was taken */
    XAL_TRACE_EMITTED = 7,  /* the event output, b, was fired */
    XAL_TRACE_ENABLED = 8,  /* the transition, b, was made */
    XAL_TRACE_ACTION = 9,   /* action number: of the present state, from 1; 0 for none left */
    XAL_TRACE_STEP = 10,    /* step number */
    XAL_TRACE_MOST = 240    /* bytes of a move's frames at most */
};

/* ---- The calls */

/* The verdict on a table: 0 or a refusal 1 to 4. Writes nothing. Each call below gives the same verdict first. */
uint64_t xal_check(const uint8_t *table, size_t table_bytes);

/* The need of a table in words; 0 for a table that is refused. Writes nothing. */
size_t xal_need(const uint8_t *table, size_t table_bytes);

/*
 * Zeroes the store's need, then sets initial chart states and start values. Refuses by 1 to 5.
 * The words may hold anything before; those past the need stay as they are.
 */
uint64_t xal_load(const uint8_t *table, size_t table_bytes, uint32_t *store, size_t store_words);

/*
 * Sets now to `to` and fires each delay that is due then. Refuses by 1 to 8.
 * A refused call leaves the store as it came.
 */
uint64_t xal_advance(const uint8_t *table, size_t table_bytes, uint32_t *store, size_t store_words, uint32_t to);

/*
 * Puts the values into the output variables associated with the event, in table order, and fires the event: an event output of a source,
 * named by its id, born at `birth`, which may lie in the past. Refuses by 1 to 6 and 9 to 11.
 * A refused call leaves the store as it came.
 */
uint64_t xal_arrival(const uint8_t *table, size_t table_bytes, uint32_t *store, size_t store_words, size_t event, uint32_t birth,
                     const int32_t *values, size_t value_count);

/*
 * Makes moves until no move exists, else the next move's record has no room in the output buffer, else the budget is used, and tells the
 * moves made, why it stopped (XAL_STOP_..), the bytes written (whole records, from the buffer's start) and how many of the moves were untrue
 * steps. Refuses by 1 to 6.
 * The rest of the buffer stays as it is. A refused call leaves store and buffer as they came and tells 0 four times.
 */
uint64_t xal_run(const uint8_t *table, size_t table_bytes, uint32_t *store, size_t store_words, uint32_t budget, uint8_t *output,
                 size_t output_bytes, uint32_t *moves, uint32_t *stop, size_t *bytes, uint32_t *untrue);

/*
 * The same run with a trace beside it: it does what xal_run does, and writes the frames of each move it makes to the trace room, from the
 * room's start. A move is traced whole or not made, so that the run may also stop because the next move's frames have no room; that is
 * looked at after the record's room and before the budget. Tells besides the bytes of the trace. Refuses by 1 to 6.
 * The rest of both rooms stays as it is. A refused call leaves store, output buffer and trace room as they came and tells 0 five times.
 * Traces of runs that follow each other may be joined where no other call came between.
 */
uint64_t xal_run_traced(const uint8_t *table, size_t table_bytes, uint32_t *store, size_t store_words, uint32_t budget, uint8_t *output,
                        size_t output_bytes, uint8_t *trace, size_t trace_bytes, uint32_t *moves, uint32_t *stop, size_t *bytes,
                        size_t *traced, uint32_t *untrue);

/*
 * Shows a store as it was after some frames of a trace. The store is that from which the traced run started, and becomes the one shown:
 * chart states and values are those after at most so many frames of the text, each word else stays. Tells how many frames were read, and
 * the line that ended the reading, counted from 1: the first that is no line of a trace, or names an element, or an id or chart state of
 * the element and kind, that the table does not have. Lines past the frames asked for are not looked at; 0 where no line ended it.
 * Refuses by 1 to 5, and then writes nothing and tells 0 and 0. The store need not be well formed, so one that is shown can be shown on
 * with the lines that follow; to go back, show from the start again.
 */
uint64_t xal_show(const uint8_t *table, size_t table_bytes, uint32_t *store, size_t store_words, const uint8_t *text, size_t text_bytes,
                  size_t frames, size_t *shown, size_t *line);

/*
 * The stretch of the table that holds the frames of one kind, and that which holds the steps of one action, named by its id. Answers its
 * length in bytes, and tells the byte at which it starts. For a refused table, an unknown number and where there are none: 0 and 0.
 */
size_t xal_frames_of(const uint8_t *table, size_t table_bytes, size_t kind, size_t *start);
size_t xal_steps_of(const uint8_t *table, size_t table_bytes, size_t action, size_t *start);

#ifdef __cplusplus
}
#endif

#endif
