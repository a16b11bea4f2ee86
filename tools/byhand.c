// The machine of document 01 as a controller programmer writes it by hand: a check, a decoder, a check of the store and a run. tools/bench
// measures the library against it, and stops where the two differ. It has the rules of docs/RULES.md and the same store.
//
// Its style is plain. The check reads the frames into structs and goes over them rule by rule, as the document does. The decoder makes structs
// with lists of indices, once for all runs. The run looks through all event inputs for the one to be taken. Nothing is tuned beyond that.
#include "byhand.h"

void *memcpy(void *, const void *, size_t);
void *memset(void *, int, size_t);

enum { FRAME = 12, MOST = 4096, NONE = 0xFFFF };
enum { ELEMENT = 1, INPUT, OUTPUT, VARIABLE, ASSOCIATION, STATE, TRANSITION, ACTION, STEP, CONNECTION, DATA, KINDS };
enum { BASIC, INTERFACE, DELAY, SOURCE, SINK };
enum { ROLE_INPUT, ROLE_OUTPUT, ROLE_INTERNAL };
enum { COPY, ADD, SUBTRACT, NEGATE, MULTIPLY, DIVIDE, MINIMUM, MAXIMUM, AGE };
enum { ELEMENTS = 64, INPUTS = 256, OUTPUTS = 256, VARIABLES = 512, STATES = 512, TRANSITIONS = 1024, EVENTS = 256 };

// ---- frames

struct frame {
    uint16_t number; // its place in the table
    uint8_t kind, flag;
    uint16_t a, b, c, d, e;
};

// The frames by kind, so that an id counts from the start of its kind. Those of an unknown kind are counted as kind 0.
struct table {
    unsigned frames, start[KINDS], count[KINDS];
    struct frame frame[MOST];
};

static unsigned kind_of(const uint8_t *p) { return p[0] < KINDS ? p[0] : 0; }
static unsigned half(const uint8_t *p) { return (unsigned)p[0] << 8 | p[1]; }

static const struct frame *frame_of(const struct table *t, int kind, unsigned id) { return &t->frame[t->start[kind] + id]; }
static const struct frame *end_of(const struct table *t, int kind) { return frame_of(t, kind, t->count[kind]); }
static int exists(const struct table *t, int kind, unsigned id) { return id < t->count[kind]; }

// Whether the frame is there and its field a is this one.
static int is_of(const struct table *t, int kind, unsigned id, unsigned owner) { return exists(t, kind, id) && frame_of(t, kind, id)->a == owner; }
static int is_sort(const struct table *t, unsigned element, unsigned sort) {
    return exists(t, ELEMENT, element) && frame_of(t, ELEMENT, element)->flag == sort;
}
static int is_role(const struct table *t, unsigned variable, unsigned role) {
    return exists(t, VARIABLE, variable) && frame_of(t, VARIABLE, variable)->flag == role;
}

// ---- the check: the form of the frames, then their references, then the network rules, each on the frames before the fault that is found.
// These are in order and of a right form, but may refer to frames behind it.

struct fault {
    unsigned frame, number;
};

static void refuse(struct fault *fault, unsigned frame, unsigned number) {
    fault->frame = frame;
    fault->number = number;
}

// The greatest flag, the fields used with every flag, and how many frames there may be.
static const struct {
    unsigned flag, fields, most;
} kinds[KINDS] = {
    [ELEMENT] = {4, 1, ELEMENTS},
    [INPUT] = {255, 1, INPUTS},
    [OUTPUT] = {0, 1, OUTPUTS},
    [VARIABLE] = {2, 3, VARIABLES},
    [ASSOCIATION] = {1, 2, MOST},
    [STATE] = {0, 1, STATES},
    [TRANSITION] = {4, 3, TRANSITIONS},
    [ACTION] = {0, 4, MOST},
    [STEP] = {8, 1, MOST},
    [CONNECTION] = {0, 2, MOST},
    [DATA] = {0, 2, MOST},
};

// The variables that an operation reads.
static const uint8_t operands[9] = {1, 2, 2, 1, 2, 2, 2, 2, 0};

static unsigned fields_used(unsigned kind, unsigned flag) {
    switch (kind) {
    case ELEMENT: return kinds[kind].fields + (flag == BASIC);
    case TRANSITION: return kinds[kind].fields + (flag == 0 ? 0 : 2);
    case STEP: return kinds[kind].fields + operands[flag];
    default: return kinds[kind].fields;
    }
}

static int form_ok(const uint8_t *p) {
    const unsigned kind = p[0], flag = p[1];
    if (kind == 0 || kind >= KINDS || flag > kinds[kind].flag) return 0;
    for (unsigned i = fields_used(kind, flag); i < 5; i++)
        if (half(p + 2 + 2 * i) != 0) return 0;
    return kind != ACTION || half(p + 6) <= 64;
}

// It counts the kinds, too, those behind a fault included.
static void check_form(struct table *t, const uint8_t *bytes, struct fault *fault) {
    unsigned before = 0;
    memset(t->count, 0, sizeof t->count);
    for (unsigned i = 0; i < t->frames; i++) {
        const uint8_t *p = bytes + FRAME * i;
        const unsigned kind = kind_of(p);
        t->count[kind]++;
        if (i < fault->frame && (kind < before || !form_ok(p) || t->count[kind] > kinds[kind].most)) refuse(fault, i, 2);
        before = kind;
    }
}

static void read_frames(struct table *t, const uint8_t *bytes) {
    unsigned next[KINDS], sum = 0;
    for (int kind = 0; kind < KINDS; kind++) {
        t->start[kind] = next[kind] = sum;
        sum += t->count[kind];
    }
    for (unsigned i = 0; i < t->frames; i++) {
        const uint8_t *p = bytes + FRAME * i;
        struct frame *f = &t->frame[next[kind_of(p)]++];
        f->number = (uint16_t)i;
        f->kind = p[0];
        f->flag = p[1];
        f->a = (uint16_t)half(p + 2);
        f->b = (uint16_t)half(p + 4);
        f->c = (uint16_t)half(p + 6);
        f->d = (uint16_t)half(p + 8);
        f->e = (uint16_t)half(p + 10);
    }
}

static int association_ok(const struct table *t, const struct frame *f) {
    const int kind = f->flag == ROLE_INPUT ? INPUT : OUTPUT;
    unsigned element;
    if (!exists(t, kind, f->a)) return 0;
    element = frame_of(t, kind, f->a)->a;
    if (f->flag == ROLE_OUTPUT && is_sort(t, element, INTERFACE)) return 0;
    return is_of(t, VARIABLE, f->b, element) && is_role(t, f->b, f->flag);
}

static int transition_ok(const struct table *t, const struct frame *f) {
    unsigned element;
    if (!exists(t, STATE, f->a)) return 0;
    element = frame_of(t, STATE, f->a)->a;
    if (!is_of(t, STATE, f->b, element)) return 0;
    if (f->c != NONE && !is_of(t, INPUT, f->c, element)) return 0;
    return f->flag == 0 || (is_of(t, VARIABLE, f->d, element) && is_of(t, VARIABLE, f->e, element));
}

static int action_ok(const struct table *t, const struct frame *f) {
    unsigned element;
    if (!exists(t, STATE, f->a)) return 0;
    element = frame_of(t, STATE, f->a)->a;
    for (unsigned i = 0; i < f->c; i++) {
        const unsigned step = f->b + i;
        if (!exists(t, STEP, step) || !is_of(t, VARIABLE, frame_of(t, STEP, step)->a, element)) return 0;
    }
    return f->d == NONE || is_of(t, OUTPUT, f->d, element);
}

static int step_ok(const struct table *t, const struct frame *f) {
    unsigned element;
    if (!exists(t, VARIABLE, f->a) || is_role(t, f->a, ROLE_INPUT)) return 0;
    element = frame_of(t, VARIABLE, f->a)->a;
    if (!is_sort(t, element, BASIC)) return 0;
    if (operands[f->flag] >= 1 && !is_of(t, VARIABLE, f->b, element)) return 0;
    return operands[f->flag] < 2 || is_of(t, VARIABLE, f->c, element);
}

static int references_ok(const struct table *t, const struct frame *f) {
    switch (f->kind) {
    case ELEMENT: return f->flag != BASIC || is_of(t, STATE, f->b, f->number); // elements come first: the number is the id
    case INPUT:
    case OUTPUT:
    case VARIABLE: return exists(t, ELEMENT, f->a);
    case ASSOCIATION: return association_ok(t, f);
    case STATE: return is_sort(t, f->a, BASIC);
    case TRANSITION: return transition_ok(t, f);
    case ACTION: return action_ok(t, f);
    case STEP: return step_ok(t, f);
    case CONNECTION: return exists(t, OUTPUT, f->a) && exists(t, INPUT, f->b);
    default: return is_role(t, f->a, ROLE_OUTPUT) && is_role(t, f->b, ROLE_INPUT);
    }
}

static void check_references(const struct table *t, struct fault *fault) {
    for (unsigned i = 0; i < t->frames; i++) {
        const struct frame *f = &t->frame[i];
        if (f->number < fault->frame && !references_ok(t, f)) refuse(fault, f->number, 3);
    }
}

// How many events and variables each element has.
struct parts {
    unsigned inputs, outputs, variables, roles[3];
};

static void count_parts(const struct table *t, struct parts *parts) {
    memset(parts, 0, ELEMENTS * sizeof *parts);
    for (const struct frame *f = frame_of(t, INPUT, 0); f < end_of(t, INPUT); f++)
        if (f->a < ELEMENTS) parts[f->a].inputs++;
    for (const struct frame *f = frame_of(t, OUTPUT, 0); f < end_of(t, OUTPUT); f++)
        if (f->a < ELEMENTS) parts[f->a].outputs++;
    for (const struct frame *f = frame_of(t, VARIABLE, 0); f < end_of(t, VARIABLE); f++) {
        if (f->a >= ELEMENTS) continue;
        parts[f->a].variables++;
        if (f->flag <= ROLE_INTERNAL) parts[f->a].roles[f->flag]++;
    }
}

static int shape_ok(const struct parts *p, unsigned sort) {
    switch (sort) {
    case INTERFACE: return p->inputs == p->outputs && p->roles[ROLE_INPUT] == p->roles[ROLE_OUTPUT] && p->roles[ROLE_INTERNAL] == 0;
    case DELAY: return p->inputs == 2 && p->outputs == 1 && p->variables == 1 && p->roles[ROLE_INPUT] == 1;
    case SOURCE: return p->inputs == 0 && p->variables == p->roles[ROLE_OUTPUT];
    case SINK: return p->outputs == 0 && p->variables == p->roles[ROLE_INPUT];
    default: return 1;
    }
}

// Sets a bit, and answers whether it was set before.
static int set_bit(uint64_t *set, unsigned i) {
    const uint64_t bit = (uint64_t)1 << i % 64;
    const int was = (set[i / 64] & bit) != 0;
    set[i / 64] |= bit;
    return was;
}

// Whether an earlier frame of the kind has the same flag, a and b. For ids that no accepted table has.
static int given_before(const struct table *t, const struct frame *f) {
    for (const struct frame *g = frame_of(t, f->kind, 0); g < f; g++)
        if (g->flag == f->flag && g->a == f->a && g->b == f->b) return 1;
    return 0;
}

static void check_elements(const struct table *t, struct fault *fault) {
    static uint64_t priorities[65536 / 64];
    struct parts parts[ELEMENTS];
    memset(priorities, 0, sizeof priorities);
    count_parts(t, parts);
    for (const struct frame *f = frame_of(t, ELEMENT, 0); f < end_of(t, ELEMENT) && f->number < fault->frame; f++)
        if (set_bit(priorities, f->a) || !shape_ok(&parts[f->number], f->flag)) refuse(fault, f->number, 4);
}

static void check_inputs(const struct table *t, struct fault *fault) {
    static uint64_t priorities[ELEMENTS][256 / 64];
    memset(priorities, 0, sizeof priorities);
    for (const struct frame *f = frame_of(t, INPUT, 0); f < end_of(t, INPUT) && f->number < fault->frame; f++)
        if (f->a < ELEMENTS ? set_bit(priorities[f->a], f->flag) : given_before(t, f)) refuse(fault, f->number, 4);
}

static void check_associations(const struct table *t, struct fault *fault) {
    static uint64_t pairs[2][EVENTS][VARIABLES / 64];
    static uint8_t number[2][MOST]; // of the variables of an event
    memset(pairs, 0, sizeof pairs);
    memset(number, 0, sizeof number);
    for (const struct frame *f = frame_of(t, ASSOCIATION, 0); f < end_of(t, ASSOCIATION) && f->number < fault->frame; f++) {
        if (f->a < EVENTS && f->b < VARIABLES ? set_bit(pairs[f->flag][f->a], f->b) : given_before(t, f)) refuse(fault, f->number, 4);
        if (++number[f->flag][f->a] > 8) refuse(fault, f->number, 4);
    }
}

static void check_connections(const struct table *t, struct fault *fault) {
    static uint64_t pairs[EVENTS][EVENTS / 64];
    memset(pairs, 0, sizeof pairs);
    for (const struct frame *f = frame_of(t, CONNECTION, 0); f < end_of(t, CONNECTION) && f->number < fault->frame; f++)
        if (f->a < EVENTS && f->b < EVENTS ? set_bit(pairs[f->a], f->b) : given_before(t, f)) refuse(fault, f->number, 4);
}

static void check_data(const struct table *t, struct fault *fault) {
    static uint64_t connected[MOST / 64];
    memset(connected, 0, sizeof connected);
    for (const struct frame *f = frame_of(t, DATA, 0); f < end_of(t, DATA) && f->number < fault->frame; f++)
        if (set_bit(connected, f->b)) refuse(fault, f->number, 4);
}

// The refusal number of a table. What is read of it stays in t.
static unsigned judge(struct table *t, const uint8_t *bytes, size_t length, unsigned *frame) {
    struct fault fault = {MOST, 0};
    *frame = 0;
    if (length == 0 || length % FRAME != 0 || length > FRAME * MOST) return 1;
    t->frames = (unsigned)(length / FRAME);
    check_form(t, bytes, &fault);
    read_frames(t, bytes);
    check_references(t, &fault);
    check_elements(t, &fault);
    check_inputs(t, &fault);
    check_associations(t, &fault);
    check_connections(t, &fault);
    check_data(t, &fault);
    if (fault.number != 0) *frame = fault.frame;
    return fault.number;
}

static struct table last_read;

unsigned hand_check(const uint8_t *table, size_t table_bytes, unsigned *frame) { return judge(&last_read, table, table_bytes, frame); }

// ---- the decoder

enum { ANY = -1 };

// The ids of a kind with a flag, by the owner in their field a: those of owner x are list[first[x]] to list[first[x + 1] - 1].
static void list_by_owner(const struct table *t, int kind, int flag, unsigned owners, uint16_t *first, uint16_t *list) {
    uint16_t next[VARIABLES + 1];
    memset(first, 0, (owners + 1) * sizeof first[0]);
    for (unsigned i = 0; i < t->count[kind]; i++) {
        const struct frame *f = frame_of(t, kind, i);
        if (flag == ANY || f->flag == flag) first[f->a + 1]++;
    }
    for (unsigned i = 0; i < owners; i++) first[i + 1] = (uint16_t)(first[i] + first[i + 1]);
    memcpy(next, first, owners * sizeof first[0]);
    for (unsigned i = 0; i < t->count[kind]; i++) {
        const struct frame *f = frame_of(t, kind, i);
        if (flag == ANY || f->flag == flag) list[next[f->a]++] = (uint16_t)i;
    }
}

static void decode_states(const struct table *t, struct hand_machine *m) {
    uint16_t first[STATES + 1], list[MOST];
    m->states = t->count[STATE];
    for (unsigned i = 0; i < m->states; i++) m->state[i].element = frame_of(t, STATE, i)->a;

    list_by_owner(t, TRANSITION, ANY, m->states, first, list);
    for (unsigned i = 0; i < m->states; i++) m->state[i].first_transition = first[i], m->state[i].end_transition = first[i + 1];
    for (unsigned i = 0; i < t->count[TRANSITION]; i++) {
        const struct frame *f = frame_of(t, TRANSITION, list[i]);
        const struct hand_transition transition = {f->b, f->c, f->d, f->e, f->flag};
        m->transition[i] = transition;
    }

    list_by_owner(t, ACTION, ANY, m->states, first, list);
    for (unsigned i = 0; i < m->states; i++) m->state[i].first_action = first[i], m->state[i].actions = (uint16_t)(first[i + 1] - first[i]);
    for (unsigned i = 0; i < t->count[ACTION]; i++) {
        const struct frame *f = frame_of(t, ACTION, list[i]);
        const struct hand_action action = {f->b, f->c, f->d};
        m->action[i] = action;
    }

    for (unsigned i = 0; i < t->count[STEP]; i++) {
        const struct frame *f = frame_of(t, STEP, i);
        const struct hand_step step = {f->a, f->b, f->c, f->flag};
        m->step[i] = step;
    }
}

static void decode_connections(const struct table *t, struct hand_machine *m) {
    uint16_t first[OUTPUTS + 1], list[MOST];
    list_by_owner(t, CONNECTION, ANY, t->count[OUTPUT], first, list);
    for (unsigned i = 0; i < t->count[OUTPUT]; i++) m->output[i].first = first[i], m->output[i].end = first[i + 1];
    for (unsigned i = 0; i < t->count[CONNECTION]; i++) m->connected[i] = frame_of(t, CONNECTION, list[i])->b;

    list_by_owner(t, DATA, ANY, m->variables, m->first_fed, list);
    for (unsigned i = 0; i < t->count[DATA]; i++) m->fed[i] = frame_of(t, DATA, list[i])->b;
}

// The variables of event inputs, and of event outputs but for those of interfaces. Answers how many the latter are.
static unsigned decode_associations(const struct table *t, struct hand_machine *m) {
    uint16_t first[EVENTS + 1], list[MOST];
    list_by_owner(t, ASSOCIATION, ROLE_INPUT, m->inputs, first, list);
    for (unsigned i = 0; i < m->inputs; i++) m->input[i].first = first[i], m->input[i].end = first[i + 1];
    for (unsigned i = 0; i < first[m->inputs]; i++) m->associated[i] = frame_of(t, ASSOCIATION, list[i])->b;

    list_by_owner(t, ASSOCIATION, ROLE_OUTPUT, t->count[OUTPUT], first, list);
    for (unsigned i = 0; i < t->count[OUTPUT]; i++) m->output[i].first_carried = first[i], m->output[i].end_carried = first[i + 1];
    for (unsigned i = 0; i < first[t->count[OUTPUT]]; i++) m->carried[i] = frame_of(t, ASSOCIATION, list[i])->b;
    return first[t->count[OUTPUT]];
}

// The k-th input variable of an interface and its k-th output variable.
static void decode_partner_variables(const struct table *t, struct hand_machine *m) {
    uint16_t first[ELEMENTS + 1], list[VARIABLES];
    list_by_owner(t, VARIABLE, ANY, m->elements, first, list);
    for (unsigned e = 0; e < m->elements; e++) {
        unsigned out = first[e];
        if (m->sort[e] == DELAY) m->timer[e] = list[first[e]];
        if (m->sort[e] != INTERFACE) continue;
        for (unsigned in = first[e]; in < first[e + 1]; in++) {
            if (m->role[list[in]] != ROLE_INPUT) continue;
            while (m->role[list[out]] != ROLE_OUTPUT) out++;
            m->partner[list[in]] = list[out++];
        }
    }
}

// The k-th event input of an interface and its k-th event output, which carries the partners of the input's variables; START of a delay.
static void decode_partner_events(const struct table *t, struct hand_machine *m, unsigned carried) {
    uint16_t first_in[ELEMENTS + 1], first_out[ELEMENTS + 1], in[INPUTS], out[OUTPUTS];
    list_by_owner(t, INPUT, ANY, m->elements, first_in, in);
    list_by_owner(t, OUTPUT, ANY, m->elements, first_out, out);
    for (unsigned e = 0; e < m->elements; e++) {
        if (m->sort[e] == DELAY) m->start[e] = in[first_in[e]];
        if (m->sort[e] != INTERFACE) continue;
        for (unsigned k = 0; first_in[e] + k < first_in[e + 1]; k++) {
            struct hand_input *input = &m->input[in[first_in[e] + k]];
            struct hand_output *output = &m->output[out[first_out[e] + k]];
            input->event = out[first_out[e] + k];
            output->first_carried = (uint16_t)carried;
            for (unsigned i = input->first; i < input->end; i++) m->carried[carried++] = m->partner[m->associated[i]];
            output->end_carried = (uint16_t)carried;
        }
    }
}

static void decode(const struct table *t, struct hand_machine *m) {
    unsigned carried;
    m->elements = t->count[ELEMENT];
    m->inputs = t->count[INPUT];
    m->variables = t->count[VARIABLE];
    for (unsigned i = 0; i < m->elements; i++) m->sort[i] = frame_of(t, ELEMENT, i)->flag;
    for (unsigned i = 0; i < m->variables; i++) m->role[i] = frame_of(t, VARIABLE, i)->flag;
    for (unsigned i = 0; i < m->inputs; i++) {
        const struct frame *f = frame_of(t, INPUT, i);
        m->input[i].element = f->a;
        m->input[i].priority = (uint32_t)frame_of(t, ELEMENT, f->a)->a << 8 | f->flag;
    }
    decode_states(t, m);
    decode_connections(t, m);
    carried = decode_associations(t, m);
    decode_partner_variables(t, m);
    decode_partner_events(t, m, carried);
}

void hand_decode(const uint8_t *table, size_t table_bytes, struct hand_machine *machine) {
    unsigned frame;
    hand_check(table, table_bytes, &frame);
    decode(&last_read, machine);
}

// ---- the store, in the words of document 01

enum { NOW, RUNNING, CURRENT, BIRTH, MODE, LIVE, ACTION_NUMBER, STEP_NUMBER, OVERWRITTEN, DUE, NEXT_DUE, UNTRUE, SPARE, HEAD = 16 };
enum { IDLE, CHARTS, ACTS };

static int running_ok(const struct hand_machine *m, const uint32_t *store) {
    const uint32_t element = store[RUNNING] - 1, event = store[CURRENT] - 1, action = store[ACTION_NUMBER];
    const struct hand_state *state;
    if (store[MODE] == IDLE) {
        for (int i = RUNNING; i <= STEP_NUMBER; i++)
            if (store[i] != 0) return 0;
        return 1;
    }
    if (store[MODE] > ACTS || element >= m->elements || m->sort[element] != BASIC) return 0;
    if (event >= m->inputs || m->input[event].element != element || store[BIRTH] > store[NOW]) return 0;
    if (store[MODE] == CHARTS) return store[LIVE] <= 1 && action == 0 && store[STEP_NUMBER] == 0;
    state = &m->state[store[HEAD + 3 * element]];
    if (store[LIVE] != 0 || action > state->actions) return 0;
    if (action == 0) return store[STEP_NUMBER] == 0;
    return store[STEP_NUMBER] <= m->action[state->first_action + action - 1].steps;
}

// The earliest due time into two words: whether a due flag is set, and the time or 0.
static void earliest(const uint32_t *element, unsigned elements, uint32_t *next) {
    next[0] = next[1] = 0;
    for (; elements > 0; elements--, element += 3)
        if (element[1] && (!next[0] || element[2] < next[1])) next[0] = 1, next[1] = element[2];
}

unsigned hand_store_check(const struct hand_machine *m, const uint32_t *store, size_t store_words) {
    const uint32_t *w;
    uint32_t next[2];
    if (store_words < HEAD + 3 * m->elements + 3 * m->inputs + 2 * m->variables) return 5;
    if (store[NOW] > 2147483647u) return 6;
    for (int i = SPARE; i < HEAD; i++)
        if (store[i] != 0) return 6;
    w = store + HEAD;
    earliest(w, m->elements, next);
    if (store[DUE] != next[0] || store[NEXT_DUE] != next[1]) return 6;
    for (unsigned i = 0; i < m->elements; i++, w += 3) {
        if (m->sort[i] == BASIC ? w[0] >= m->states || m->state[w[0]].element != i : w[0] != 0) return 6;
        if (w[1] > 1) return 6;
        if (w[1] == 0 && w[2] != 0) return 6;
        if (w[1] == 1 && (m->sort[i] != DELAY || w[2] < store[NOW] || w[2] > 4294967294u)) return 6;
    }
    for (unsigned i = 0; i < m->inputs; i++, w += 3) {
        if (w[0] > 1) return 6;
        if (w[0] == 0 && (w[1] != 0 || w[2] != 0)) return 6;
        if (w[0] == 1 && (w[1] > w[2] || w[2] > store[NOW])) return 6;
    }
    for (unsigned i = 0; i < m->variables; i++, w += 2)
        if (m->role[i] != ROLE_INPUT && w[1] != 0) return 6;
    return running_ok(m, store) ? 0 : 6;
}

// ---- the run

struct run {
    const struct hand_machine *m;
    uint32_t now, running, current, birth, mode, live, action, step, overwritten;
    uint32_t *elements, *inputs, *values; // three, three and two words each
    uint32_t *next;                       // the two words of the next due time
    uint8_t *output;                      // where the next record goes
    uint32_t untrue;                      // steps of this run
};

static void fire(struct run *r, unsigned event, uint32_t birth) {
    const struct hand_machine *m = r->m;
    const struct hand_output *out = &m->output[event];
    for (unsigned i = out->first; i < out->end; i++) {
        uint32_t *w = r->inputs + 3 * m->connected[i];
        if (w[0] != 0 && r->overwritten != 4294967295u) r->overwritten++;
        w[0] = 1;
        w[1] = birth;
        w[2] = r->now;
    }
    for (unsigned i = out->first_carried; i < out->end_carried; i++) {
        const unsigned from = m->carried[i];
        for (unsigned j = m->first_fed[from]; j < m->first_fed[from + 1]; j++) r->values[2 * m->fed[j] + 1] = r->values[2 * from];
    }
}

// The event input to be taken, or -1: the least by last update, element priority and local priority.
static int least(const struct run *r) {
    uint32_t update = 0, priority = 0;
    int found = -1;
    for (unsigned i = 0; i < r->m->inputs; i++) {
        const uint32_t *w = r->inputs + 3 * i;
        if (w[0] == 0) continue;
        if (found < 0 || w[2] < update || (w[2] == update && r->m->input[i].priority < priority)) {
            found = (int)i;
            update = w[2];
            priority = r->m->input[i].priority;
        }
    }
    return found;
}

// A result, and whether it is the true one.
struct outcome {
    int32_t result;
    int is_true;
};

static struct outcome exact(int32_t x) { return (struct outcome){x, 1}; }
static struct outcome untrue(int32_t x) { return (struct outcome){x, 0}; }

static struct outcome clipped(int64_t x) {
    return x < -2147483648LL ? untrue(-2147483647 - 1) : x > 2147483647LL ? untrue(2147483647) : exact((int32_t)x);
}

static struct outcome operate(unsigned operation, int32_t b, int32_t c, uint32_t age) {
    switch (operation) {
    case COPY: return exact(b);
    case ADD: return clipped((int64_t)b + c);
    case SUBTRACT: return clipped((int64_t)b - c);
    case NEGATE: return clipped(-(int64_t)b);
    case MULTIPLY: return clipped((int64_t)b * c);
    case DIVIDE: return c == 0 ? untrue(0) : clipped((int64_t)b / c);
    case MINIMUM: return exact(b < c ? b : c);
    case MAXIMUM: return exact(b < c ? c : b);
    default: return exact((int32_t)age);
    }
}

static int guard_holds(const struct hand_transition *t, const uint32_t *values) {
    int32_t d, e;
    if (t->guard == 0) return 1;
    d = (int32_t)values[2 * t->d];
    e = (int32_t)values[2 * t->e];
    switch (t->guard) {
    case 1: return d == e;
    case 2: return d != e;
    case 3: return d < e;
    default: return d <= e;
    }
}

static uint8_t *put_half(uint8_t *p, uint32_t x) {
    p[0] = (uint8_t)(x >> 8);
    p[1] = (uint8_t)x;
    return p + 2;
}
static uint8_t *put_word(uint8_t *p, uint32_t x) { return put_half(put_half(p, x >> 16), x); }

// An idle machine takes an event.
static void take(struct run *r, unsigned taken) {
    const struct hand_machine *m = r->m;
    const struct hand_input *in = &m->input[taken];
    uint32_t *w = r->inputs + 3 * taken;
    const uint32_t birth = w[1], update = w[2];
    w[0] = w[1] = w[2] = 0;
    for (unsigned i = in->first; i < in->end; i++) {
        uint32_t *value = r->values + 2 * m->associated[i];
        value[0] = value[1];
    }
    switch (m->sort[in->element]) {
    case BASIC:
        r->running = in->element + 1u;
        r->current = taken + 1;
        r->birth = birth;
        r->mode = CHARTS;
        r->live = 1;
        break;
    case INTERFACE:
        for (unsigned i = in->first; i < in->end; i++) {
            const unsigned variable = m->associated[i];
            r->values[2 * m->partner[variable]] = r->values[2 * variable];
        }
        fire(r, in->event, birth);
        break;
    case DELAY: {
        const int32_t dt = (int32_t)r->values[2 * m->timer[in->element]];
        uint32_t *due = r->elements + 3 * in->element + 1;
        if (taken != m->start[in->element]) {
            const int first = due[0] && due[1] == r->next[1];
            due[0] = due[1] = 0;
            if (first) earliest(r->elements, m->elements, r->next);
        } else if (!due[0]) { // it counts from the first START
            due[0] = 1;
            due[1] = r->now + (uint32_t)(dt < 0 ? 0 : dt);
            if (!r->next[0] || due[1] < r->next[1]) r->next[0] = 1, r->next[1] = due[1];
        }
        break;
    }
    case SINK:
        r->output = put_half(r->output, in->element);
        r->output = put_half(r->output, taken);
        r->output = put_word(r->output, birth);
        r->output = put_word(r->output, update);
        r->output = put_word(r->output, r->now);
        for (unsigned i = in->first; i < in->end; i++) r->output = put_word(r->output, r->values[2 * m->associated[i]]);
        break;
    }
}

// Mode 1: the first transition that is enabled, or none.
static void follow(struct run *r) {
    const struct hand_machine *m = r->m;
    uint32_t *at = r->elements + 3 * (r->running - 1);
    for (unsigned i = m->state[*at].first_transition; i < m->state[*at].end_transition; i++) {
        const struct hand_transition *t = &m->transition[i];
        if (t->event != NONE && !(r->live && t->event == r->current - 1)) continue;
        if (!guard_holds(t, r->values)) continue;
        *at = t->to;
        r->live = 0;
        r->mode = ACTS;
        r->step = 0;
        r->action = m->state[t->to].actions > 0;
        return;
    }
    r->running = r->current = r->birth = r->mode = r->live = 0;
}

// Mode 2: a step, the end of an action, or that of all.
static void act(struct run *r) {
    const struct hand_machine *m = r->m;
    const struct hand_state *state = &m->state[r->elements[3 * (r->running - 1)]];
    const struct hand_action *action;
    if (r->action == 0) {
        r->mode = CHARTS;
        return;
    }
    action = &m->action[state->first_action + r->action - 1];
    if (r->step < action->steps) {
        const struct hand_step *s = &m->step[action->first + r->step++];
        const int32_t b = (int32_t)r->values[2 * s->b], c = (int32_t)r->values[2 * s->c];
        const struct outcome told = operate(s->operation, b, c, r->now - r->birth);
        r->values[2 * s->result] = (uint32_t)told.result;
        if (!told.is_true) r->untrue++;
    } else {
        if (action->event != NONE) fire(r, action->event, r->birth);
        r->action = r->action < state->actions ? r->action + 1 : 0;
        r->step = 0;
    }
}

// Of the record that is written when an event is taken, if one is.
static size_t record_bytes(const struct hand_machine *m, int taken) {
    const struct hand_input *in = &m->input[taken];
    return m->sort[in->element] == SINK ? 16 + 4 * (size_t)(in->end - in->first) : 0;
}

struct hand_told hand_run(const struct hand_machine *m, uint32_t *store, uint32_t budget, uint8_t *output, size_t output_bytes) {
    struct hand_told told = {0, 0, 0, 0};
    struct run r;
    r.m = m;
    r.now = store[NOW];
    r.running = store[RUNNING], r.current = store[CURRENT], r.birth = store[BIRTH], r.mode = store[MODE], r.live = store[LIVE];
    r.action = store[ACTION_NUMBER], r.step = store[STEP_NUMBER], r.overwritten = store[OVERWRITTEN];
    r.elements = store + HEAD;
    r.inputs = r.elements + 3 * m->elements;
    r.values = r.inputs + 3 * m->inputs;
    r.next = store + DUE;
    r.output = output;
    r.untrue = 0;

    while (told.stop == 0) {
        const int next = r.mode == IDLE ? least(&r) : 0;
        const size_t room = output_bytes - (size_t)(r.output - output);
        if (next < 0) {
            told.stop = 1;
        } else if (r.mode == IDLE && room < record_bytes(m, next)) {
            told.stop = 3;
        } else if (told.moves == budget) {
            told.stop = 2;
        } else {
            if (r.mode == IDLE) take(&r, (unsigned)next);
            else if (r.mode == CHARTS) follow(&r);
            else act(&r);
            told.moves++;
        }
    }

    store[RUNNING] = r.running, store[CURRENT] = r.current, store[BIRTH] = r.birth, store[MODE] = r.mode, store[LIVE] = r.live;
    store[ACTION_NUMBER] = r.action, store[STEP_NUMBER] = r.step, store[OVERWRITTEN] = r.overwritten;
    store[UNTRUE] = r.untrue < 4294967295u - store[UNTRUE] ? store[UNTRUE] + r.untrue : 4294967295u;
    told.bytes = (size_t)(r.output - output);
    told.untrue = r.untrue;
    return told;
}

uint64_t hand_run_judging(const uint8_t *table, size_t table_bytes, uint32_t *store, size_t store_words, uint32_t budget, uint8_t *output,
                          size_t output_bytes, struct hand_told *told) {
    static const struct hand_told nothing = {0, 0, 0, 0};
    static struct hand_machine machine;
    unsigned frame, number = hand_check(table, table_bytes, &frame);
    *told = nothing;
    if (number == 0) {
        decode(&last_read, &machine);
        number = hand_store_check(&machine, store, store_words);
    }
    if (number != 0) return (uint64_t)number << 16 | frame;
    *told = hand_run(&machine, store, budget, output, output_bytes);
    return 0;
}
