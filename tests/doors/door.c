/*
 * Serves the C functions of libpieces.a: requests on standard input, answers on standard output.
 * Numbers are little-endian and of the width of their type in pieces.h, lengths and N of 8 bytes.
 *
 * A request: a byte for the function (0 pieces_trace, 1 pieces_start, .. 9 pieces_check), N, three
 * numbers (P, K and T; or P, the seat and 0), then each area: its length in entries, then its
 * entries between GUARD others on each side.
 * The areas are trace and room for pieces_trace; else all nine, of which the function gets those
 * that it takes. The answer: the function's, then each area again with the entries about it.
 * Requests need not wait for answers: those made so far are written before it waits for more.
 */
#include "pieces.h"
#include <errno.h>
#include <stdio.h>
#include <stdlib.h>
#include <string.h>
#include <unistd.h>

/* An odd number of entries, so that an area is aligned as its type asks and no more. */
enum { GUARD = 17 };
enum { AREAS = 9, CHUNK = 1 << 16 };
enum { TRACE, START, NEW, SET, FREEZE, ACQUIRE, RELEASE, BIN, LOOK, CHECK, FUNCTIONS };
enum { STATES, LINKS, LEADERS, HOLDS, COUNTS, REGISTER, INTO, LIST, WORK };

/* Bytes of an entry, by area. */
static const size_t trace_widths[] = {1, 1};
static const size_t store_widths[AREAS] = {1, 2, 2, 2, 4, 2, 2, 2, 4};

typedef struct {
    uint8_t *bytes; /* the entries, with those about them */
    size_t length;  /* in entries, without those about them */
    size_t width;
} Area;

static Area areas[AREAS];
static uint8_t input[CHUNK], output[CHUNK];
static size_t input_at, input_end, output_end;

static void fail(const char *what) {
    fprintf(stderr, "door: %s\n", what);
    exit(1);
}

static void flush(void) {
    size_t at = 0;
    while (at < output_end) {
        ssize_t wrote = write(STDOUT_FILENO, output + at, output_end - at);
        if (wrote < 0 && errno != EINTR) fail("the answers cannot be written");
        if (wrote > 0) at += (size_t)wrote;
    }
    output_end = 0;
}

static void give(const void *from, size_t size) {
    const uint8_t *bytes = from;
    while (size) {
        if (output_end == CHUNK) flush();
        size_t part = size < CHUNK - output_end ? size : CHUNK - output_end;
        memcpy(output + output_end, bytes, part);
        output_end += part;
        bytes += part;
        size -= part;
    }
}

/* Whether there is more input; answers go out before it waits. */
static int more(void) {
    while (input_at == input_end) {
        flush();
        ssize_t got = read(STDIN_FILENO, input, CHUNK);
        if (got < 0 && errno != EINTR) fail("the requests cannot be read");
        if (got == 0) return 0;
        input_at = 0;
        input_end = got > 0 ? (size_t)got : 0;
    }
    return 1;
}

static void take(void *to, size_t size) {
    uint8_t *bytes = to;
    while (size) {
        if (!more()) fail("a request that is cut off");
        size_t part = size < input_end - input_at ? size : input_end - input_at;
        memcpy(bytes, input + input_at, part);
        input_at += part;
        bytes += part;
        size -= part;
    }
}

static size_t size_of(const Area *area) { return (area->length + 2 * GUARD) * area->width; }

static void take_area(Area *area, size_t width) {
    uint64_t length;
    take(&length, sizeof length);
    if (length > 1 << 24) fail("a request with an area that is too long");
    area->length = length;
    area->width = width;
    free(area->bytes);
    area->bytes = malloc(size_of(area));
    if (!area->bytes) fail("no memory");
    take(area->bytes, size_of(area));
}

/* The first entry of an area. */
static void *first(int area) { return areas[area].bytes + GUARD * areas[area].width; }

#define LENT(area) first(area), areas[area].length
#define STORE \
    n, LENT(STATES), LENT(LINKS), LENT(LEADERS), LENT(HOLDS), LENT(COUNTS), LENT(REGISTER), \
        LENT(INTO)
#define ALL STORE, LENT(LIST), LENT(WORK)

static uint64_t call(int function, size_t n, const uint16_t *numbers) {
    uint16_t p = numbers[0], k = numbers[1], t = numbers[2], seat = numbers[1];
    switch (function) {
    case TRACE: return pieces_trace(LENT(0), LENT(1));
    case START: return pieces_start(STORE);
    case NEW: return pieces_new(ALL);
    case SET: return pieces_set(ALL, p, k, t);
    case FREEZE: return pieces_freeze(ALL, p, seat);
    case ACQUIRE: return pieces_acquire(ALL, p, seat);
    case RELEASE: return pieces_release(ALL, p, seat);
    case BIN: return pieces_bin(ALL, p);
    case LOOK: return pieces_look(STORE, LENT(WORK), p);
    default: return pieces_check(STORE, LENT(WORK));
    }
}

static void serve(void) {
    uint8_t function;
    uint64_t n;
    uint16_t numbers[3];
    take(&function, sizeof function);
    if (function >= FUNCTIONS) fail("a request for no function");
    take(&n, sizeof n);
    take(numbers, sizeof numbers);
    int many = function == TRACE ? 2 : AREAS;
    const size_t *widths = function == TRACE ? trace_widths : store_widths;
    for (int i = 0; i < many; i++) take_area(&areas[i], widths[i]);
    uint64_t answer = call(function, n, numbers);
    give(&answer, sizeof answer);
    for (int i = 0; i < many; i++) give(areas[i].bytes, size_of(&areas[i]));
}

int main(void) {
    while (more()) serve();
    return 0;
}
