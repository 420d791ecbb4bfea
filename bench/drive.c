// Times each public call of libpieces.a against the same call of calls.c, one after the other.
// The tables are put back between calls, outside the timed part; both have to give the same.
// Each line printed: shape, call, capacity, pieces in the shape, nanoseconds by calls.c and by
// libpieces.a, with tabs between. `count` has the instructions of each call counted, by callgrind
// or, under an emulator, between marks for count.c; it prints shape, call and side of each.
#define _GNU_SOURCE
#include "calls.h"
#include <stdio.h>
#include <stdlib.h>
#include <string.h>
#include <time.h>
#include <unistd.h>
#if __has_include(<valgrind/callgrind.h>)
#include <valgrind/callgrind.h>
#else
#define CALLGRIND_TOGGLE_COLLECT
#define CALLGRIND_DUMP_STATS_AT(name) (void)name
#endif

enum { LARGEST = PIECES_MOST, NONE = PIECES_NONE, REGISTER = 3 * PIECES_LINES, SAMPLES = 201 };
enum { EMPTY, DRAFTS, TREE, CHAIN, DAG, RINGS, SEATED, DOUBLY, LOOP, SHAPES };
enum {
    START, NEW, SET, FREEZE, ACQUIRE, ACQUIRE_LINE, RELEASE, RELEASE_ALL, BIN, LOOK, CHECK, CALLS
};

static const char *const shape_names[] = {
    "empty", "drafts", "tree", "chain", "DAG with 4 links", "rings of 8",
    "rings of 8, 1,000 lines", "doubly linked chain", "one loop of all",
};
static const char *const call_names[] = {
    "start", "new", "set", "freeze", "acquire", "acquire, a new line", "release",
    "release, frees", "bin", "look", "check",
};

typedef struct {
    uint8_t states[LARGEST];
    uint16_t links[4 * LARGEST], leaders[LARGEST], holds[LARGEST];
    uint32_t counts[LARGEST];
    uint16_t lines[REGISTER], into[LARGEST], list[LARGEST];
} Tables;

static Tables kept, lent;
static uint32_t work[8 * LARGEST];
static size_t n;

#define THE_STORE \
    n, lent.states, n, lent.links, 4 * n, lent.leaders, n, lent.holds, n, lent.counts, n, \
        lent.lines, REGISTER, lent.into, n
#define THE_WORK work, 8 * n
#define ALL THE_STORE, lent.list, n, THE_WORK

// One call by one side, by seat 0 or, for a new line, seat 16. Draft n - 2 and the free number
// n - 1 stand beside every shape.
#define SIDE(x) \
    static uint64_t by_##x(int call) { \
        switch (call) { \
        case START: return x##_start(THE_STORE); \
        case NEW: return x##_new(ALL); \
        case SET: return x##_set(ALL, n - 2, 0, 0); \
        case FREEZE: return x##_freeze(ALL, 0, 0); \
        case ACQUIRE: return x##_acquire(ALL, 0, 0); \
        case ACQUIRE_LINE: return x##_acquire(ALL, 0, 16); \
        case RELEASE: case RELEASE_ALL: return x##_release(ALL, 0, 0); \
        case BIN: return x##_bin(ALL, n - 2); \
        case LOOK: return x##_look(THE_STORE, THE_WORK, 0); \
        default: return x##_check(THE_STORE, THE_WORK); \
        } \
    }
SIDE(plain)
SIDE(pieces)

// Link k of piece p in a shape of m pieces.
static size_t link_of(int shape, size_t p, size_t k, size_t m) {
    static uint32_t random = 1;
    size_t t = NONE;
    switch (shape) {
    case DRAFTS: random = random * 1664525 + 1013904223; t = (random >> 8) % m; break;
    case TREE: t = k < 2 ? 2 * p + 1 + k : NONE; break;
    case CHAIN: t = k < 1 ? p + 1 : NONE; break;
    case DAG: t = p + 1 + k; break;
    case RINGS: case SEATED: t = k < 1 ? (p % 8 < 7 && p + 1 < m ? p + 1 : p / 8 * 8) : NONE; break;
    case DOUBLY: t = k < 1 ? p + 1 : k < 2 && p ? p - 1 : NONE; break;
    case LOOP: t = k < 1 ? (p + 1) % m : NONE; break;
    }
    return t < m ? t : NONE;
}

// Freezes the drafts from p on by seat 0, each with what it reaches; gives how many lines it takes.
static size_t freeze_from(size_t p, size_t m) {
    size_t used = 0;
    for (; p < m; p++)
        if (lent.states[p] == 1) {
            plain_freeze(ALL, p, 0);
            used++;
        }
    return used;
}

// Makes the tables that a call starts from. A freeze finds drafts alone, or all but one ring frozen
// where there are 1,000 lines: those of seat 0, and of the others on a ring after the first each.
static void make(int shape, int call, size_t m) {
    plain_start(THE_STORE);
    memset(lent.list, 7, sizeof lent.list);
    memset(work, 7, sizeof work);
    if (shape != EMPTY) {
        for (size_t p = 0; p < m; p++) {
            lent.states[p] = 1;
            for (size_t k = 0; k < 4; k++) {
                size_t t = lent.links[4 * p + k] = link_of(shape, p, k, m);
                if (t != NONE) lent.into[t] += t != p;
            }
        }
        if (m + 2 <= n) lent.states[n - 2] = 1;
        if (shape == SEATED) {
            size_t used = freeze_from(call == FREEZE ? 8 : 0, m);
            for (size_t i = 0; used < 1000; i++, used++)
                plain_acquire(ALL, 8 * (1 + i / 31), 1 + i % 31);
        } else if (shape != DRAFTS && call != FREEZE) {
            freeze_from(0, m);
        }
        if (call == RELEASE && shape != DRAFTS) plain_acquire(ALL, 0, 0);
    }
    if (plain_check(THE_STORE, THE_WORK) != 1 << 16) {
        fprintf(stderr, "%s: not sound\n", shape_names[shape]);
        exit(1);
    }
    kept = lent;
}

// Ends the run if the two sides differ on this call, in the answer or in an area.
static void compare(int shape, int call) {
    static Tables after;
    lent = kept;
    uint64_t wanted = by_plain(call);
    after = lent;
    lent = kept;
    memset(work, 9, 8 * n * sizeof *work);
    uint64_t got = by_pieces(call);
    int clear = call == START || (!work[0] && !memcmp(work, work + 1, (8 * n - 1) * sizeof *work));
    if (got == wanted && clear && !memcmp(&after, &lent, sizeof lent)) return;
    fprintf(stderr, "%s, %s: libpieces.a gives %#llx, calls.c %#llx, or tables that differ\n",
            shape_names[shape], call_names[call], (unsigned long long)got,
            (unsigned long long)wanted);
    exit(1);
}

static double now(void) {
    struct timespec t;
    clock_gettime(CLOCK_MONOTONIC, &t);
    return 1e9 * t.tv_sec + t.tv_nsec;
}

static int ascending(const void *a, const void *b) {
    double x = *(const double *)a, y = *(const double *)b;
    return (x > y) - (x < y);
}

static double median(double *samples) {
    qsort(samples, SAMPLES, sizeof *samples, ascending);
    return samples[SAMPLES / 2];
}

// What reading the clock twice costs.
static double clock_cost(void) {
    double samples[SAMPLES];
    for (int i = 0; i < SAMPLES; i++) {
        double begun = now();
        samples[i] = now() - begun;
    }
    return median(samples);
}

static double once(uint64_t (*side)(int), int call) {
    lent = kept;
    double begun = now();
    side(call);
    return now() - begun;
}

// Times one call by both sides in turn and prints the medians.
static void measure(int shape, int call, size_t m) {
    double plain[SAMPLES], pieces[SAMPLES], cost = clock_cost();
    make(shape, call, m);
    compare(shape, call);
    for (int i = 0; i < SAMPLES; i++) {
        plain[i] = once(by_plain, call);
        pieces[i] = once(by_pieces, call);
    }
    printf("%s\t%s\t%zu\t%zu\t%.1f\t%.1f\n", shape_names[shape], call_names[call], n, m,
           median(plain) - cost, median(pieces) - cost);
}

// Tells count.c that something begins or ends.
static void mark(void) { (void)getppid(); }

// One call by each side, its instructions counted under shape, call and side.
static void count(int shape, int call, size_t m) {
    make(shape, call, m);
    for (int side = 0; side < 2; side++) {
        char name[100];
        snprintf(name, sizeof name, "%s/%s/%s", shape_names[shape], call_names[call],
                 side ? "pieces" : "plain");
        lent = kept;
        mark();
        CALLGRIND_TOGGLE_COLLECT;
        side ? by_pieces(call) : by_plain(call);
        CALLGRIND_TOGGLE_COLLECT;
        mark();
        CALLGRIND_DUMP_STATS_AT(name);
        puts(name);
    }
}

// Every call on every shape at full capacity.
static void every(void (*each)(int, int, size_t)) {
    n = LARGEST;
    for (int shape = 0; shape < SHAPES; shape++)
        for (int call = 0; call < CALLS; call++) each(shape, call, n - 2);
}

int main(int argc, char **argv) {
    const char *what = argc == 2 ? argv[1] : "";
    if (!strcmp(what, "calls")) {
        every(measure);
    } else if (!strcmp(what, "count")) {
        mark();
        mark();
        puts("nothing");
        every(count);
    } else if (!strcmp(what, "capacities")) {
        for (n = 16; n <= LARGEST; n *= 2)
            for (int call = 0; call < CALLS; call++) measure(DAG, call, n - 2);
    } else if (!strcmp(what, "sizes")) {
        n = LARGEST;
        for (size_t m = 1; m <= n; m *= 2) {
            measure(CHAIN, FREEZE, m);
            measure(CHAIN, RELEASE_ALL, m);
            measure(LOOP, FREEZE, m);
            measure(LOOP, RELEASE_ALL, m);
        }
    } else {
        fprintf(stderr, "usage: drive calls | capacities | sizes | count\n");
        return 2;
    }
    return 0;
}
