// The fourth host of tools/bench: what the check costs on tables that are refused, and on sound ones of the same length.
//
//   bench-faults times      in nanoseconds
//   bench-faults calls      makes each call once, for callgrind to count
//
// Prints a line for each table: the sound table that it is made from, or the group that it is of where there is none; what it is; its frames;
// whether it is sound; and the time. It stops with 2 where the check written by hand (tools/byhand.c) has another verdict.
#include <stdio.h>

#include "bench-networks.h"
#include "bench-time.h"
#include "byhand.h"
#include "xaluudhiga.h"

int strcmp(const char *, const char *);
void exit(int);

// ---- the measure

static int timed;

// The best of some; where a call takes very long, one will do.
static double time_of(void) {
    double best = mean_time();
    for (int i = 1; i < 7 && best < 2e6; i++) {
        double t = mean_time();
        if (t < best) best = t;
    }
    return best;
}

static void tell(const char *base, const char *name, int number) {
    unsigned frame, refused = hand_check(table, 12 * frames, &frame);
    uint64_t answer = xal_check(table, 12 * frames);
    if (answer != ((uint64_t)refused << 16 | frame)) {
        printf("%s, %s %d, %d frames: refused %u, frame %u; by hand %u, frame %u\n", base, name, number, frames, xal_number(answer),
               xal_frame(answer), refused, frame);
        exit(2);
    }
    printf("%s|%s", base, name);
    if (number >= 0) printf(" %02X", number);
    printf("|%d|%d", frames, refused == 0);
    if (timed) printf("|%.0f", time_of());
    printf("\n");
    fflush(stdout);
}

// ---- a sound table, and what is made of it

static byte sound[12 * MOST];
static int sound_frames;

static byte *frame_at(int f) { return table + 12 * f; }
static byte *last(void) { return frame_at(frames - 1); }
static void restore(void) { memcpy(table, sound, sizeof table), frames = sound_frames; }

static void take_from(const byte *p) { memcpy(frame_at(frames++), p, 12); }

// First those of the kinds before `kind`'s new place, which are none or the elements, then those of that kind, then the rest.
static int bring_forward(int kind, int behind) {
    int any = 0;
    frames = 0;
    EACH(f, sound_frames) if (sound[12 * f] <= behind) take_from(sound + 12 * f);
    EACH(f, sound_frames) if (sound[12 * f] == kind) take_from(sound + 12 * f), any = 1;
    EACH(f, sound_frames) if (sound[12 * f] > behind && sound[12 * f] != kind) take_from(sound + 12 * f);
    return any;
}

static void variations(const char *base) {
    static int order[MOST];
    memcpy(sound, table, sizeof table), sound_frames = frames;
    tell(base, "sound", -1);
    last()[11] = 1, tell(base, "last frame refused by 2", -1), restore();
    memset(last() + 2, 0xFF, 2), tell(base, "last frame refused by 3", -1), restore();
    memcpy(last(), last() - 12, 12), tell(base, "last frame given twice", -1), restore();
    memset(last(), 0, 12), last()[0] = 1, tell(base, "last frame an element", -1), restore();
    EACH(f, frames) memcpy(frame_at((f + 1) % frames), sound + 12 * f, 12);
    tell(base, "last frame first", -1);
    EACH(f, frames) memcpy(frame_at(frames - 1 - f), sound + 12 * f, 12);
    tell(base, "reversed", -1);
    drawn = 2;
    draw_order(order, frames);
    EACH(f, frames) memcpy(frame_at(order[f]), sound + 12 * f, 12);
    tell(base, "in any order", -1);
    for (int kind = 2; kind < KINDS; kind++) {
        if (bring_forward(kind, 0)) tell(base, "first kind", kind);
        if (kind > 2 && bring_forward(kind, 1)) tell(base, "after the elements kind", kind);
    }
    restore();
}

// ---- tables past the limits: what stands in order refers to ids that no sound table has, and that exist only because of the frames behind

// n frames of a kind, all of element 0; variables of one role.
static void many(int kind, int flag, int n) { EACH(i, n) put(kind, flag, 0, 0, 0, 0, 0); }

static void beyond_associations(int n) {
    const int third = (n - 1) / 3;
    put(1, 4, 0, 0, 0, 0, 0);
    EACH(i, third) put(5, 0, third - 1 - i, third - 1 - i, 0, 0, 0);
    many(2, 0, third), many(4, 0, n - frames);
}
static void beyond_eight_each(int n) {
    const int third = (n - 1) / 3;
    put(1, 3, 0, 0, 0, 0, 0);
    EACH(i, third) put(5, 1, third - 1 - i / 8, i * 7 % third, 0, 0, 0);
    many(3, 0, third), many(4, 1, n - frames);
}
static void beyond_connections(int n) {
    const int third = (n - 1) / 3;
    put(1, 1, 0, 0, 0, 0, 0);
    EACH(i, n - 1 - 2 * third) put(10, 0, third - 1 - i % third, (i * 5 + i / third) % third, 0, 0, 0);
    many(2, 0, third), many(3, 0, third);
}
static void beyond_one_output(int n) {
    const int half = n / 2;
    put(1, 0, 0, 0, 0, 0, 0);
    EACH(i, half - 3) put(10, 0, 0, half - 4 - i, 0, 0, 0);
    many(6, 0, 1), many(3, 0, 1), many(2, 0, n - frames);
}
static void beyond_data(int n) {
    const int third = (n - 1) / 3;
    put(1, 1, 0, 0, 0, 0, 0);
    EACH(i, n - 1 - 2 * third) put(11, 0, third - 1 - i % third, third + i % third, 0, 0, 0);
    many(4, 1, third), many(4, 0, third);
}
static void beyond_transitions(int n) {
    const int fourth = (n - 1) / 4, less = fourth < 1024 ? fourth : 1024;
    put(1, 0, 0, fourth - 1, 0, 0, 0);
    EACH(i, less) put(7, 1, fourth - 1 - i % fourth, i % fourth, fourth - 1 - i % fourth, fourth - 1 - i % fourth, i % fourth);
    many(6, 0, fourth), many(4, 2, fourth), many(2, 0, n - frames);
}
static void beyond_actions(int n) {
    const int fifth = (n - 1) / 5;
    put(1, 0, 0, fifth - 1, 0, 0, 0);
    EACH(i, fifth) put(8, 0, fifth - 1 - i, i % (fifth - 64), 64, fifth - 1 - i, 0);
    many(6, 0, fifth);
    EACH(i, fifth) put(9, 0, fifth - 1 - i, i, 0, 0, 0);
    many(4, 2, fifth), many(3, 0, n - frames);
}
static void beyond_long_actions(int n) {
    put(1, 0, 0, 0, 0, 0, 0);
    EACH(i, n - 70) put(8, 0, 0, i % 2, 64, NONE, 0);
    EACH(i, 65) put(9, 0, i % 2, 0, 0, 0, 0);
    many(6, 0, 1), many(4, 2, n - frames);
}
static void beyond_steps(int n) {
    const int half = n / 2;
    put(1, 0, 0, 0, 0, 0, 0);
    EACH(i, half) put(9, 1, half - 3 - i % (half - 2), i % (half - 2), half - 3 - i % (half - 2), 0, 0);
    many(6, 0, 1), many(4, 2, n - frames);
}
// What belongs to elements beyond 64; `flag` is one of the kind.
static void owners_beyond(int kind, int flag, int most, int n) {
    const int owned = most < n / 2 ? most : n / 2, elements = n - owned;
    EACH(i, owned) put(kind, kind == 2 ? i : flag, elements - 1 - i % elements, 0, 0, 0, 0);
    EACH(i, elements) put(1, 0, i, 0, 0, 0, 0);
}
static void inputs_owned_beyond(int n) { owners_beyond(2, 0, 256, n); }
static void outputs_owned_beyond(int n) { owners_beyond(3, 0, 256, n); }
static void variables_owned_beyond(int n) { owners_beyond(4, 2, 512, n); }
static void states_owned_beyond(int n) { owners_beyond(6, 0, 512, n); }
static void initial_states_beyond(int n) {
    EACH(i, 64) put(1, 0, i, n - 65 - i, 0, 0, 0);
    EACH(i, n - 64) put(6, 0, (n - 65 - i) % 64, 0, 0, 0, 0);
}
static void elements_beyond(int n) {
    EACH(i, n / 2) put(1, 0, i, i, 0, 0, 0);
    EACH(i, n - n / 2) put(6, 0, i, 0, 0, 0, 0);
}
static void variables_beyond(int n) {
    put(1, 3, 0, 0, 0, 0, 0);
    many(4, 1, n - 1);
}
static void zeros(int n) { many(0, 0, n); }

static const struct {
    const char *name;
    void (*make)(int n);
} beyond[] = {
    {"associations beyond", beyond_associations},
    {"eight associations each beyond", beyond_eight_each},
    {"connections beyond", beyond_connections},
    {"one event output to many beyond", beyond_one_output},
    {"data connections beyond", beyond_data},
    {"transitions beyond", beyond_transitions},
    {"actions of 64 steps beyond", beyond_actions},
    {"many actions of the same 64 steps", beyond_long_actions},
    {"steps beyond", beyond_steps},
    {"event inputs of elements beyond", inputs_owned_beyond},
    {"event outputs of elements beyond", outputs_owned_beyond},
    {"variables of elements beyond", variables_owned_beyond},
    {"states of elements beyond", states_owned_beyond},
    {"initial states beyond", initial_states_beyond},
    {"too many elements", elements_beyond},
    {"too many variables", variables_beyond},
    {"nothing but zeros", zeros},
};

static void past_the_limits(void) {
    for (int n = GROUP; n <= MOST; n *= 2) EACH(i, (int)(sizeof beyond / sizeof beyond[0])) {
        static const char *const last_one[] = {"as it is", "last refused by 2", "last refused by 3", "last given twice"};
        EACH(spoilt, 4) {
            frames = 0;
            beyond[i].make(n);
            if (frames != n) {
                printf("%s: %d frames of %d\n", beyond[i].name, frames, n);
                exit(2);
            }
            if (spoilt == 1) last()[11] = 1;
            if (spoilt == 2) memset(last() + 2, 0xFF, 2);
            if (spoilt == 3) memcpy(last(), last() - 12, 12);
            tell(beyond[i].name, last_one[spoilt], -1);
        }
    }
}

int main(int count, char **words) {
    static void (*const mostly[])(int) = {mostly_05, mostly_0A, mostly_08_09};
    static const char *const names[] = {"mostly 05", "mostly 0A", "mostly 08 and 09"};
    timed = count == 2 && !strcmp(words[1], "times");
    if (!timed && (count != 2 || strcmp(words[1], "calls"))) return 2;
    EACH(i, NETWORKS) EACH(shuffled, 2) {
        frames = 0;
        networks[i].make(networks[i].n);
        if (shuffled) shuffle();
        variations(shuffled ? "shuffled network" : "network");
    }
    EACH(i, 3) for (int groups = 1; groups <= MOST / GROUP; groups *= 2) {
        frames = 0;
        mostly[i](groups);
        variations(names[i]);
    }
    past_the_limits();
    return 0;
}
