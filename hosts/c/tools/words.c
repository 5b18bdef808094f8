/* The words behind a verb: its options, and what was given. */
#include "verbs.h"

#include "tools.h"

#include <string.h>

enum { GIVEN = OPTIONS + 4 };

static struct {
    const option *option;
    const char *value;
} taken[GIVEN];
static size_t taken_count;

const char *given(const char *name) {
    for (size_t i = 0; i < taken_count; i++)
        if (strcmp(taken[i].option->name, name) == 0)
            return taken[i].value;
    return NULL;
}

int misused(const char *name, const char *word, const char *why) {
    const verb *v = verb_named(name);
    fprintf(stderr, "icotable %s: %s %s\n", v->name, word, why);
    print_usage(stderr, v);
    fprintf(stderr, "icotable %s --help tells more\n", v->name);
    return TROUBLE;
}

/* A number such as -1.5 is a name, and so is -, standard input. */
static bool is_option(const char *word) {
    return word[0] == '-' && word[1] != 0 && strchr("0123456789.", word[1]) == NULL;
}

/* Whether a word is that option, by itself or, of two dashes, with a value behind an equals sign. */
static bool is_named(const char *name, const char *word) {
    size_t n = name == NULL ? 0 : strlen(name);
    return n > 0 && strncmp(name, word, n) == 0 && (word[n] == 0 || (word[1] == '-' && word[n] == '='));
}

static const option *option_named(const option *options, size_t most, const char *word) {
    for (size_t i = 0; i < most && options[i].name != NULL; i++)
        if (is_named(options[i].name, word) || is_named(options[i].other, word))
            return &options[i];
    return NULL;
}

static void keep(const option *o, const char *value) {
    if (given(o->name) != NULL) /* a value would have been refused */
        return;
    taken[taken_count].option = o;
    taken[taken_count++].value = value;
}

int take_options(const verb *v, int *count, char **words) {
    int kept = 0;
    bool ended = false;
    for (int i = 0; i < *count; i++) {
        char *word = words[i], *equals = strchr(word, '=');
        if (ended || !is_option(word)) {
            words[kept++] = word;
            continue;
        }
        if ((ended = strcmp(word, "--") == 0))
            continue;
        const option *o = option_named(v->options, OPTIONS, word);
        if (o == NULL && (o = option_named(common_options, OPTIONS, word)) == NULL)
            return misused(v->name, word, "is not an option");
        if (o->value == NULL && equals != NULL)
            return misused(v->name, o->name, "has no value");
        if (o->value != NULL && equals == NULL && i + 1 == *count)
            return misused(v->name, word, "wants a value");
        if (o->value != NULL && given(o->name) != NULL)
            return misused(v->name, o->name, "is there twice");
        keep(o, o->value == NULL ? "" : equals != NULL ? equals + 1 : words[++i]);
    }
    *count = kept;
    return GOOD;
}
