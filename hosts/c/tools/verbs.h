/* The verbs of icotable, once: what is done with their words, their help, the man page and the completion are made from this
 * table (verbs.c). */
#ifndef VERBS_H
#define VERBS_H

#include <stddef.h>
#include <stdio.h>

/* An option: its name, another name or NULL, what its value is called or NULL where it has none ("a|b" where it is one of
 * these), and what it does. */
typedef struct option {
    const char *name, *other, *value, *help;
} option;

/* A verb: its names as they are called, how many there have to be and may be, a line and a paragraph on it, and its options.
 * It is run with its names alone; options are asked for by given (tools.h). */
enum { OPTIONS = 10 };
typedef struct verb {
    const char *name, *names, *line, *help;
    int least, most;
    option options[OPTIONS];
    int (*run)(int count, char **names);
} verb;

extern const verb verbs[];
extern const size_t verbs_count;

/* The options of every verb, up to one without a name; those instead of a verb; and what is said of all verbs. */
extern const option common_options[], main_options[];
extern const char *const notes[];
extern const size_t notes_count;

const verb *verb_named(const char *name);

/* words.c: takes the options out of the words behind a verb; what is left are its names. GOOD, or TROUBLE with lines to standard
 * error. */
int take_options(const verb *v, int *count, char **words);
/* A word of a verb, and why it is not right; its usage, and TROUBLE. */
int misused(const char *name, const char *word, const char *why);

/* help.c */
void print_usage(FILE *out, const verb *v);
void print_help(FILE *out);
void print_verb_help(const verb *v);
void print_man(void);
void print_completion(void);

#endif
