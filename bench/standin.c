// The lent trace by the plain C of baseline.c. With calls.c under the names of libpieces.a it
// stands in for that library, to try the benchmark and to check its C from outside.
#define LENT_TRACE
#include "../include/pieces.h"
#include "baseline.c"

static const uint8_t *lent;
static uint8_t *room;
static size_t lent_left, room_len, given;

static size_t take(uint8_t *bytes) {
    size_t n = lent_left < CHUNK ? lent_left : CHUNK;
    memcpy(bytes, lent, n);
    lent += n;
    lent_left -= n;
    return n;
}

static void give(const uint8_t *bytes, size_t n) {
    if (given <= room_len && n <= room_len - given) memcpy(room + given, bytes, n);
    given += n;
}

uint64_t pieces_trace(const uint8_t *trace, size_t trace_len, uint8_t *out, size_t out_len) {
    if (trace_len > PIECES_TRACE) return (1ull << 63) + PIECES_LONG;
    lent = trace;
    lent_left = trace_len;
    room = out;
    room_len = out_len;
    given = 0;
    start();
    write_digits();
    run();
    if (given > out_len) {
        memset(out, 0, out_len);
        return (1ull << 63) + PIECES_ROOM;
    }
    memset(out + given, 0, out_len - given);
    return given;
}
