/* icotable VERB ..: tools for table files and journals of builds. The verbs are those of verbs.c. */
#include "tools.h"

#include "environment.h"
#include "verbs.h"

#include <errno.h>
#include <fcntl.h>
#include <string.h>
#include <unistd.h>

/* A file that is opened must not get the number of a standard stream that is closed. */
static int streams(void) {
    for (int file = 0; file <= 2; file++)
        if (fcntl(file, F_GETFD) < 0) {
            if (file == 1)
                return trouble("standard output", "is closed");
            if (open("/dev/null", O_RDWR) != file)
                return TROUBLE;
        }
    return GOOD;
}

/* What was written has arrived; or TROUBLE. */
static int flushed(int status) {
    if (fflush(stdout) != 0)
        return trouble("standard output", strerror(errno));
    return ferror(stdout) ? trouble("standard output", "could not be written whole") : status;
}

static void print_version(void) {
    puts("icotable " ICOTABLE_VERSION);
}

static int instead_of_a_verb(int count, const char *word) {
    if (count != 2)
        print_help(stderr);
    else if (strcmp(word, "--help") == 0 || strcmp(word, "-h") == 0)
        print_help(stdout);
    else if (strcmp(word, "--version") == 0)
        print_version();
    else if (strcmp(word, "--man") == 0)
        print_man();
    else if (strcmp(word, "--completion") == 0)
        print_completion();
    else {
        fprintf(stderr, "icotable: there is no verb %s\n", word);
        print_help(stderr);
        return TROUBLE;
    }
    return count == 2 ? GOOD : TROUBLE;
}

static int run(const verb *v, int count, char **names) {
    int status = take_options(v, &count, names);
    if (status != GOOD)
        return status;
    if (given("--help") != NULL)
        print_verb_help(v);
    else if (given("--version") != NULL)
        print_version();
    else if (count < v->least)
        return misused(v->name, v->names, "are its names, and one is missing");
    else if (count > v->most)
        return misused(v->name, names[v->most], "is a name too many");
    else
        return choose_colour() == GOOD ? v->run(count, names) : TROUBLE;
    return GOOD;
}

int main(int count, char **names) {
    if (streams() != GOOD)
        return TROUBLE;
    unsigned environment = icotable_float_environment();
    if (environment != 0) {
        fprintf(stderr, "icotable: the floating-point environment: %s\n", icotable_float_environment_words(environment));
        return TROUBLE;
    }
    const verb *v = count > 1 ? verb_named(names[1]) : NULL;
    return flushed(v != NULL ? run(v, count - 2, names + 2) : instead_of_a_verb(count, count > 1 ? names[1] : ""));
}
