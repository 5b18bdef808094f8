#include "tools.h"

void print_verdict(FILE *out, const table_file *f) {
    uint64_t number = f->table.number;
    if (number == 0) {
        fprintf(out, "%s: %s, ", f->name, table_words(f->atom));
        paint(out, GREEN);
        fputs("accepted", out);
        paint(out, PLAIN);
        fprintf(out, "%s\n", f->viewer ? " under a viewer's bounds" : "");
        return;
    }
    fprintf(out, "%s: ", f->name);
    paint(out, RED);
    fprintf(out, "refused with %llu", (unsigned long long)number);
    paint(out, PLAIN);
    fprintf(out, " as %s: %s\n", table_words(f->atom), icotable_words(number));
    place p = find_place(f->bytes, f->count, f->atom, f->viewer);
    if (p.number == number)
        fprintf(out, "%s: at byte %zu: %s\n", f->name, p.byte, p.why);
}

void json_verdict(const table_file *f) {
    uint64_t number = f->table.number;
    json_text("file", f->name);
    json_text("kind", f->atom ? "atom" : "pair");
    json_flag("accepted", number == 0);
    json_count("number", number);
    if (number == 0)
        return;
    json_text("words", icotable_words(number));
    place p = find_place(f->bytes, f->count, f->atom, f->viewer);
    if (p.number == number) {
        json_count("byte", p.byte);
        json_text("why", p.why);
    }
}
