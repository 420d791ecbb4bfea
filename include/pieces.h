/*
 * Acornskiff: a store of pattern pieces, for programs in C and C++.
 *
 * A piece is a draft (its links may change) or frozen (they may not). Frozen pieces that reach
 * each other are one group with one count, and a frozen piece that nothing keeps is freed at
 * once. A hold on a piece belongs to a seat, and only that seat can release it. Link with
 * libpieces.a, which is for x86-64 Linux; it allocates nothing, keeps nothing between calls, and
 * calls nothing of the program's.
 *
 * Areas. The program owns the tables and lends them to each call as a pointer and a length in
 * entries. For a store of capacity N, 1 to PIECES_MOST:
 *
 *   states   N            0 free, 1 draft, 2 frozen
 *   links    4N           the four links of piece P start at entry 4P; a number or PIECES_NONE
 *   leaders  N            frozen: its group's leader; else PIECES_NONE
 *   holds    N            0 to PIECES_HOLDS, over all seats; 0 unless frozen
 *   counts   N            at a leader: the group's count; else 0
 *   lines    3072         the register: PIECES_LINES lines of seat, piece and number of holds,
 *                         ascending by seat, then piece; unused lines are last and all 0
 *   into     N            draft: the link places of other pieces that name it; else 0
 *   list     at least N   numbers freed by this call
 *   work     at least 8N  scratch
 *
 * The first seven are the store; each is to be exactly its length. pieces_start makes any contents
 * the empty store. Every other call looks first whether the tables are sound, so a program may
 * read them, keep them in a file and lend them again.
 *
 * Pointers. None is null, not even where the length is 0; each is aligned as its type asks and
 * points to as many entries as its length says; no two areas of one call overlap. A call writes
 * only to areas whose pointer is not const. A store is lent to one call at a time.
 *
 * Answers. Each of the nine calls answers one u64, taken apart by the functions at the end:
 *
 *   look     refusal + 2^8 state + 2^16 leader + 2^32 count + 2^52 holds
 *   check    refusal + 2^16 if the answer is yes
 *   others   refusal + 2^16 value + 2^32 number freed
 *
 * A refused call answers its refusal, value PIECES_NONE and 0 freed (look 0, PIECES_NONE, 0, 0;
 * check no), and leaves the store and the list unchanged. Work is unchanged after PIECES_SIZE;
 * in every other case, accepted or refused, its first 8N entries are 0 on return and later ones
 * unchanged. Entries of the list after the numbers freed stay.
 */
#ifndef PIECES_H
#define PIECES_H

#include <stddef.h>
#include <stdint.h>

#ifdef __cplusplus
extern "C" {
#endif

/* The limits. */
#define PIECES_MOST 1024   /* the largest capacity */
#define PIECES_LINKS 4     /* links a piece */
#define PIECES_HOLDS 1000  /* holds a piece, at most */
#define PIECES_SEATS 32    /* seats, 0 to 31 */
#define PIECES_LINES 1024  /* lines of the register, three entries each */
#define PIECES_TRACE 65536 /* bytes of a lent trace, at most */
#define PIECES_NONE 65535  /* the mark for none */

/* The states of a piece. */
enum pieces_states { PIECES_IS_FREE = 0, PIECES_IS_DRAFT = 1, PIECES_IS_FROZEN = 2 };

/* The refusals. They are checked in this order; the first that applies is given. */
enum pieces_refusals {
    PIECES_ACCEPTED = 0,
    PIECES_SIZE = 1,        /* N outside 1 to 1,024, an area of the store not exactly its length,
                               list or work too short (of the areas the call takes) */
    PIECES_UNSOUND = 2,     /* the store not sound (not for start and check) */
    PIECES_SEAT = 12,       /* the seat is above 31 */
    PIECES_NUMBER = 3,      /* wrong piece: P is N or more, and pieces are 0 to N - 1 */
    PIECES_PLACE = 15,      /* wrong place: K is above 3, and a piece has link places 0 to 3 */
    PIECES_TARGET = 16,     /* wrong target: T is neither none nor below N */
    PIECES_FREE = 4,        /* free piece: P is a free number, there is no such piece now */
    PIECES_FREETARGET = 17, /* free target: T is a free number, there is no such piece to link to */
    PIECES_STATE = 5,       /* set or bin of a frozen piece; acquire or release of a draft */
    PIECES_LIMIT = 6,       /* a hold would be added to a frozen piece with 1,000 holds */
    PIECES_REGISTER = 14,   /* a hold would need a line of the register and all are used */
    PIECES_NOTHELD = 7,     /* release of a piece with 0 holds */
    PIECES_NOTYOURS = 13,   /* release of a piece that has holds, but none of this seat's */
    PIECES_LINKED = 8,      /* bin of a draft that another piece links to: its into is not 0 */
    PIECES_FULL = 9,        /* new with no free number */
    PIECES_LONG = 10,       /* lent trace over 65,536 bytes */
    PIECES_ROOM = 11        /* output of a lent trace longer than the room lent */
};

/*
 * Runs a trace on a store of its own, empty at capacity 1,024, and writes its output to the room:
 * a line for each line of the trace, then `=`, drafts, frozen pieces, groups. Answers the output's
 * length; the room holds the output, then zeros. LONG answers 2^63 + 10 and leaves the room
 * unchanged; ROOM answers 2^63 + 11 and the room is all zeros. LONG is checked first.
 */
uint64_t pieces_trace(const uint8_t *trace, size_t trace_len, uint8_t *room, size_t room_len);

/* Any table contents become the empty store. */
uint64_t pieces_start(size_t n, uint8_t *states, size_t states_len, uint16_t *links,
                      size_t links_len, uint16_t *leaders, size_t leaders_len, uint16_t *holds,
                      size_t holds_len, uint32_t *counts, size_t counts_len, uint16_t *lines,
                      size_t lines_len, uint16_t *into, size_t into_len);

/* The lowest free number becomes a draft with four empty links; its number is the value. */
uint64_t pieces_new(size_t n, uint8_t *states, size_t states_len, const uint16_t *links,
                    size_t links_len, const uint16_t *leaders, size_t leaders_len,
                    const uint16_t *holds, size_t holds_len, const uint32_t *counts,
                    size_t counts_len, const uint16_t *lines, size_t lines_len,
                    const uint16_t *into, size_t into_len, const uint16_t *list, size_t list_len,
                    uint32_t *work, size_t work_len);

/*
 * Draft P's link K becomes T: none, a draft, a frozen piece, P itself. Every frozen piece no
 * longer kept becomes free, and the list then gives their numbers, ascending, from entry 0.
 */
uint64_t pieces_set(size_t n, uint8_t *states, size_t states_len, uint16_t *links,
                    size_t links_len, uint16_t *leaders, size_t leaders_len,
                    const uint16_t *holds, size_t holds_len, uint32_t *counts, size_t counts_len,
                    const uint16_t *lines, size_t lines_len, uint16_t *into, size_t into_len,
                    uint16_t *list, size_t list_len, uint32_t *work, size_t work_len, uint16_t p,
                    uint16_t k, uint16_t t);

/*
 * P and every draft it reaches become frozen; P gets one hold of the seat's. If P is frozen
 * already, the seat gets one hold on it if it has none; if it has one, the call is accepted and
 * changes nothing: a second hand-in is the same hand-in.
 */
uint64_t pieces_freeze(size_t n, uint8_t *states, size_t states_len, const uint16_t *links,
                       size_t links_len, uint16_t *leaders, size_t leaders_len, uint16_t *holds,
                       size_t holds_len, uint32_t *counts, size_t counts_len, uint16_t *lines,
                       size_t lines_len, uint16_t *into, size_t into_len, const uint16_t *list,
                       size_t list_len, uint32_t *work, size_t work_len, uint16_t p,
                       uint16_t seat);

/* One hold of the seat's more on frozen P. */
uint64_t pieces_acquire(size_t n, const uint8_t *states, size_t states_len, const uint16_t *links,
                        size_t links_len, const uint16_t *leaders, size_t leaders_len,
                        uint16_t *holds, size_t holds_len, uint32_t *counts, size_t counts_len,
                        uint16_t *lines, size_t lines_len, const uint16_t *into, size_t into_len,
                        const uint16_t *list, size_t list_len, uint32_t *work, size_t work_len,
                        uint16_t p, uint16_t seat);

/*
 * One hold of the seat's less on frozen P, on which the seat is to have one. Every frozen piece
 * no longer kept becomes free and is listed, as after set.
 */
uint64_t pieces_release(size_t n, uint8_t *states, size_t states_len, uint16_t *links,
                        size_t links_len, uint16_t *leaders, size_t leaders_len, uint16_t *holds,
                        size_t holds_len, uint32_t *counts, size_t counts_len, uint16_t *lines,
                        size_t lines_len, const uint16_t *into, size_t into_len, uint16_t *list,
                        size_t list_len, uint32_t *work, size_t work_len, uint16_t p,
                        uint16_t seat);

/*
 * Draft P becomes free; it is not listed. Every frozen piece no longer kept becomes free and is
 * listed, as after set.
 */
uint64_t pieces_bin(size_t n, uint8_t *states, size_t states_len, uint16_t *links,
                    size_t links_len, uint16_t *leaders, size_t leaders_len,
                    const uint16_t *holds, size_t holds_len, uint32_t *counts, size_t counts_len,
                    const uint16_t *lines, size_t lines_len, uint16_t *into, size_t into_len,
                    uint16_t *list, size_t list_len, uint32_t *work, size_t work_len, uint16_t p);

/* State, leader, count of its group, holds of P; for a draft 1, none, 0, 0. */
uint64_t pieces_look(size_t n, const uint8_t *states, size_t states_len, const uint16_t *links,
                     size_t links_len, const uint16_t *leaders, size_t leaders_len,
                     const uint16_t *holds, size_t holds_len, const uint32_t *counts,
                     size_t counts_len, const uint16_t *lines, size_t lines_len,
                     const uint16_t *into, size_t into_len, uint32_t *work, size_t work_len,
                     uint16_t p);

/* Yes exactly if the tables are sound. Of the refusals it gives only SIZE. */
uint64_t pieces_check(size_t n, const uint8_t *states, size_t states_len, const uint16_t *links,
                      size_t links_len, const uint16_t *leaders, size_t leaders_len,
                      const uint16_t *holds, size_t holds_len, const uint32_t *counts,
                      size_t counts_len, const uint16_t *lines, size_t lines_len,
                      const uint16_t *into, size_t into_len, uint32_t *work, size_t work_len);

/* The refusal of any of the nine calls, 0 if it was accepted. */
static inline unsigned pieces_refusal(uint64_t answer) { return (unsigned)(answer & 0xff); }

/* The value of start, new, set, freeze, acquire, release or bin: PIECES_NONE for all but new. */
static inline uint16_t pieces_value(uint64_t answer) { return (uint16_t)(answer >> 16); }

/* The number freed by such a call: so many entries of the list are their numbers. */
static inline uint32_t pieces_freed(uint64_t answer) { return (uint32_t)(answer >> 32); }

/* The state that look answers: one of pieces_states. */
static inline unsigned pieces_state(uint64_t looked) { return (unsigned)(looked >> 8 & 0xff); }

/* The leader that look answers, or PIECES_NONE. */
static inline uint16_t pieces_leader(uint64_t looked) { return (uint16_t)(looked >> 16); }

/* The count of its group that look answers. */
static inline uint32_t pieces_count(uint64_t looked) { return (uint32_t)(looked >> 32 & 0xfffff); }

/* The holds that look answers. */
static inline unsigned pieces_holds(uint64_t looked) { return (unsigned)(looked >> 52); }

/* Whether check answers yes: 1 or 0. */
static inline int pieces_sound(uint64_t checked) { return (int)(checked >> 16 & 1); }

/* The refusal of a lent trace, PIECES_LONG or PIECES_ROOM, 0 if the answer is a length. */
static inline unsigned pieces_trace_refusal(uint64_t answer) {
    return answer >> 63 ? (unsigned)(answer & 0xff) : 0;
}

#ifdef __cplusplus
}
#endif

#endif
