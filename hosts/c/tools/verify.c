/* verify [--viewer] FILE..: the library's verdict on each file, for scripts; with --viewer, under a viewer's bounds. Where there
 * is a seal beside it, the table has to be the sealed one. */
#include "tools.h"

static int judge(const table_file *f, bool json) {
    if (json)
        json_verdict(f);
    else
        print_verdict(stdout, f);
    int verdict = f->table.number != 0 ? FOUND : GOOD, seal = verify_seal(f, json, given("--strict") != NULL);
    return seal > verdict ? seal : verdict;
}

static int verify(const char *name, bool json) {
    table_file f;
    int status = open_table(&f, name);
    if (json)
        json_open(NULL, '{');
    if (status == GOOD) {
        if (given("--viewer") != NULL)
            view_table(&f);
        status = judge(&f, json);
    } else if (json) {
        json_text("file", name);
        json_text("trouble", last_trouble());
    }
    if (json)
        json_close('}');
    close_table(&f);
    return status;
}

int verify_tool(int count, char **names) {
    int status = GOOD;
    bool json = given("--json") != NULL;
    if (json) {
        json_open(NULL, '{');
        json_open("files", '[');
    }
    for (int i = 0; i < count; i++) {
        int verdict = verify(names[i], json);
        status = verdict > status ? verdict : status;
    }
    if (json) {
        json_close(']');
        json_close('}');
        json_end();
    }
    return status;
}
