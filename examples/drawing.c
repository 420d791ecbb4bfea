/*
 * A drawing program's use of the store: a front and a back that name each other are drawn up, a
 * student is told which number of a link was wrong, and both are handed in by one seat, twice as
 * students press the button, looked at, and released by it alone; once by calls, once by a lent
 * trace. A piece that another links to cannot be binned, and the table of links into drafts tells
 * by how many link places it is named.
 */
#include "pieces.h"
#include <stdio.h>
#include <stdlib.h>
#include <string.h>

enum { N = 16, REGISTER = 3 * PIECES_LINES };

/* The seats of two students. */
enum { MINE = 3, YOURS = 4 };

static uint8_t states[N];
static uint16_t links[4 * N], leaders[N], holds[N], lines[REGISTER], into[N], list[N];
static uint32_t counts[N], work[8 * N];

#define STORE \
    N, states, N, links, 4 * N, leaders, N, holds, N, counts, N, lines, REGISTER, into, N
#define AREAS STORE, list, N, work, 8 * N

/* The answer of a call that is to be accepted. */
static uint64_t accepted(const char *call, uint64_t answer) {
    if (pieces_refusal(answer) != PIECES_ACCEPTED) {
        fprintf(stderr, "%s: refused, %u\n", call, pieces_refusal(answer));
        exit(1);
    }
    return answer;
}

/* What a student is told of a link that cannot be set. */
static const char *told(uint64_t answer) {
    switch (pieces_refusal(answer)) {
    case PIECES_NUMBER: return "no piece can have that number";
    case PIECES_PLACE: return "a piece has link places 0 to 3";
    case PIECES_TARGET: return "no piece to link to can have that number";
    case PIECES_FREE: return "there is no such piece";
    case PIECES_FREETARGET: return "there is no such piece to link to";
    case PIECES_STATE: return "the piece is handed in, its links stay";
    case PIECES_ACCEPTED: return "it is set";
    default: return "the tables are spoiled";
    }
}

static void look(const char *name, uint16_t p) {
    uint64_t looked = accepted("look", pieces_look(STORE, work, 8 * N, p));
    printf("%s is piece %u: state %u, leader ", name, p, pieces_state(looked));
    if (pieces_leader(looked) == PIECES_NONE) printf("-");
    else printf("%u", pieces_leader(looked));
    printf(", count %u, holds %u\n", pieces_count(looked), pieces_holds(looked));
}

static void by_calls(void) {
    accepted("start", pieces_start(STORE));
    uint16_t front = pieces_value(accepted("new", pieces_new(AREAS)));
    uint16_t back = pieces_value(accepted("new", pieces_new(AREAS)));
    accepted("set", pieces_set(AREAS, front, 0, back));
    accepted("set", pieces_set(AREAS, back, 0, front));
    printf("front to back at place 4: %s\n", told(pieces_set(AREAS, front, 4, back)));
    printf("front to piece 16: %s\n", told(pieces_set(AREAS, front, 1, N)));
    printf("front to piece 9: %s\n", told(pieces_set(AREAS, front, 1, 9)));
    printf("bin of back: refused, %u, link places of others that name it: %u\n",
           pieces_refusal(pieces_bin(AREAS, back)), into[back]);
    look("front", front);

    accepted("freeze", pieces_freeze(AREAS, front, MINE));
    accepted("freeze", pieces_freeze(AREAS, front, MINE));
    look("front", front);
    look("back", back);
    printf("release of back: refused, %u\n", pieces_refusal(pieces_release(AREAS, back, MINE)));
    printf("release of front by another seat: refused, %u\n",
           pieces_refusal(pieces_release(AREAS, front, YOURS)));

    uint32_t freed = pieces_freed(accepted("release", pieces_release(AREAS, front, MINE)));
    printf("release of front: freed %u:", freed);
    for (uint32_t i = 0; i < freed; i++) printf(" %u", list[i]);
    printf("\nsound: %s\n", pieces_sound(pieces_check(STORE, work, 8 * N)) ? "yes" : "no");
}

static void by_trace(void) {
    static const char trace[] =
        "n\nn\ns 0 0 1\ns 1 0 0\ns 0 4 1\ns 0 1 1024\ns 0 1 9\nb 1\nl 0\n"
        "f 0 3\nf 0 3\nl 0\nl 1\nr 1 3\nr 0 4\nr 0 3\n";
    static uint8_t room[1000];
    uint64_t length = pieces_trace((const uint8_t *)trace, strlen(trace), room, sizeof room);
    if (pieces_trace_refusal(length)) {
        fprintf(stderr, "trace: refused, %u\n", pieces_trace_refusal(length));
        exit(1);
    }
    fwrite(room, 1, length, stdout);
}

int main(void) {
    printf("By calls:\n");
    by_calls();
    printf("By a lent trace:\n");
    by_trace();
    return 0;
}
