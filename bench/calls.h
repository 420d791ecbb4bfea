// The nine public calls by plain C, in calls.c: each has the parameters and the answer of its
// namesake in include/pieces.h.
#ifndef CALLS_H
#define CALLS_H
#include "../include/pieces.h"

#define PLAIN(name) __typeof__(pieces_##name) plain_##name;
PLAIN(start)
PLAIN(new)
PLAIN(set)
PLAIN(freeze)
PLAIN(acquire)
PLAIN(release)
PLAIN(bin)
PLAIN(look)
PLAIN(check)

#endif
