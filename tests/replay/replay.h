/* What the replays share: the data file that is read, the numbers in it, and how many stored answers the library's
 * agree with. */
#ifndef REPLAY_H
#define REPLAY_H

#include "icotable.h"

#include <stdbool.h>

/* A kind of answers. */
typedef struct kind_count {
    const char *words;
    size_t agree, all;
} kind_count;

/* A data file: its letters, the place of the one that is read next, and what was counted so far; and whether it is of
 * tables against an atom, or has a long-range tail. */
typedef struct replay {
    const char *name;
    bool atom, tail;
    char *letters;
    size_t count, at;
    kind_count *kinds;
    size_t shown;
} replay;

/* The number of so many upper-case hexadecimal digits that is next. Bad data ends the program with status 2 and the
 * place. */
uint64_t digits(replay *r, int width);
/* The same, and the blank or line's end behind it. */
uint64_t word(replay *r, int width);
/* The float whose bits the next word has. */
double number(replay *r);
/* The bits of a float, one pattern for every NaN. */
uint64_t bits(double x);

/* Passes over blank lines and those that start with #; whether there is another. */
bool next_line(replay *r);
/* The rest of the line, which is blank. */
void end_line(replay *r);
/* Ends the program: the data is not as it should be here. */
_Noreturn void bad_data(const replay *r, const char *why);

/* Whether the next word, a stored answer of a kind, is the library's; shows where not. */
bool same(replay *r, int kind, int width, uint64_t ours);
/* Shows what differs at the place that is read, where it does; whether it holds. */
bool holds(replay *r, int kind, bool it, const char *otherwise);
/* One more answer of a kind. */
void counted(replay *r, int kind, bool agrees);

/* A count that the data has of how much is lent: at most the whole list. */
size_t lent(replay *r, size_t length);

/* Six settings and two bin counts. */
icotable_grid read_grid(replay *r);
/* The list, the first place and how many there are; then `put` reads each entry to its place. */
void read_entries(replay *r, void *lists, void (*put)(replay *r, void *lists, uint64_t list, size_t place));

void replay_searches(replay *r);
void replay_calls(replay *r);
void replay_readings(replay *r);
void replay_damaged(replay *r);
void replay_sizes(replay *r);
void replay_tails(replay *r);
void replay_spans(replay *r);

#endif
