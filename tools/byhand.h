/* The same machine written by hand in C, for tools/bench to hold the library to. Not part of the library, and not proved. */
#ifndef BYHAND_H
#define BYHAND_H

#include <stddef.h>
#include <stdint.h>

/* A decoded table. The list of x goes from its `first` to its `end`, without that; where there is only a `first`, to the next one's. */
struct hand_machine {
    unsigned elements, inputs, variables, states;
    uint8_t sort[64];              /* of an element */
    uint16_t start[64], timer[64]; /* of a delay: its event input START and its variable DT */
    uint8_t role[512];             /* of a variable */
    uint16_t partner[512];         /* of an interface's input variable */
    struct hand_input {
        uint32_t priority;   /* that of the element, then its own */
        uint16_t element;
        uint16_t first, end; /* its variables in `associated` */
        uint16_t event;      /* of an interface: the partner */
    } input[256];
    uint16_t associated[4096];
    struct hand_output {
        uint16_t first, end;                 /* its event inputs in `connected` */
        uint16_t first_carried, end_carried; /* its variables in `carried` */
    } output[256];
    uint16_t connected[4096], carried[4096];
    uint16_t first_fed[513], fed[512]; /* the input variables that a variable is connected to */
    struct hand_state {
        uint16_t element;
        uint16_t first_transition, end_transition;
        uint16_t first_action, actions;
    } state[512];
    struct hand_transition {
        uint16_t to, event, d, e;
        uint8_t guard;
    } transition[1024]; /* by state */
    struct hand_action {
        uint16_t first, steps, event;
    } action[4096]; /* by state */
    struct hand_step {
        uint16_t result, b, c;
        uint8_t operation;
    } step[4096];
};

/* What a run tells. */
struct hand_told {
    uint32_t moves, stop;
    size_t bytes;
    uint32_t untrue;
};

/* The refusal number of a table, 0 to 4, and its frame. */
unsigned hand_check(const uint8_t *table, size_t table_bytes, unsigned *frame);

/* Decodes a table that is accepted. */
void hand_decode(const uint8_t *table, size_t table_bytes, struct hand_machine *machine);

/* 0, 5 or 6. */
unsigned hand_store_check(const struct hand_machine *machine, const uint32_t *store, size_t store_words);

/* Makes moves on a store that is well formed. */
struct hand_told hand_run(const struct hand_machine *machine, uint32_t *store, uint32_t budget, uint8_t *output, size_t output_bytes);

/* The same as xal_run: judges table and store, decodes, and runs. Answers as it does. */
uint64_t hand_run_judging(const uint8_t *table, size_t table_bytes, uint32_t *store, size_t store_words, uint32_t budget, uint8_t *output,
                          size_t output_bytes, struct hand_told *told);

#endif
