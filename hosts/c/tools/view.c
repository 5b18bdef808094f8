/* view FILE -o PAGE.html: one page that shows a table in a browser. The page is tools/view/, which the Makefile turns into the
 * lines of view_page; a line that is a mark gives way to what is this table's own. */
#include "tools.h"

#include "mesh.h"
#include "verbs.h"

#include <string.h>

/* view_page.c, made by the Makefile; NULL ends it. */
extern const char *const view_page[];

enum { ROWS = 4096, PART = 3 << 18 };

typedef unsigned long long ull;

static void base64(FILE *out, const uint8_t *b, size_t count) {
    static const char letters[] = "ABCDEFGHIJKLMNOPQRSTUVWXYZabcdefghijklmnopqrstuvwxyz0123456789+/";
    char line[1024];
    size_t used = 0;
    for (size_t i = 0; i < count; i += 3) {
        size_t left = count - i;
        uint32_t bits = (uint32_t)b[i] << 16 | (left > 1 ? (uint32_t)b[i + 1] << 8 : 0) | (left > 2 ? b[i + 2] : 0);
        line[used++] = letters[bits >> 18];
        line[used++] = letters[bits >> 12 & 63];
        line[used++] = left > 1 ? letters[bits >> 6 & 63] : '=';
        line[used++] = left > 2 ? letters[bits & 63] : '=';
        if (used == sizeof line || left <= 3) {
            fwrite(line, 1, used, out);
            used = 0;
        }
    }
}

static void write_name(FILE *out, const table_file *f, const icotable_meshes *m) {
    (void)m;
    escaped(out, base_name(f->name));
    fputc('\n', out);
}

/* In parts, since a browser bounds the length of a text. */
static void write_table(FILE *out, const table_file *f, const icotable_meshes *m) {
    (void)m;
    for (size_t at = 0; at < f->count && !ferror(out); at += PART) {
        fputs("<script type=\"text/plain\" class=\"table\">", out);
        base64(out, f->bytes + at, f->count - at < PART ? f->count - at : PART);
        fputs("</script>\n", out);
    }
}

/* A list of strings by level: the letters of Mesh rows, or their colours. */
static void write_levels(FILE *out, const table_file *f, unsigned kind, bool colours) {
    for (unsigned level = 0; level < f->table.levels; level++) {
        row r = {.kind = kind, .level = level};
        fputs(level > 0 ? ", \"" : "[\"", out);
        if (colours)
            row_colour(out, &r, f->table.levels);
        else
            fputc(row_letter(kind, level), out);
        fputc('"', out);
    }
    fputc(']', out);
}

/* What the tools say of rows, so that the page says the same. */
static void write_rows(FILE *out, const table_file *f) {
    const row scalar = {.kind = SCALAR}, repulsive = {.kind = REPULSIVE};
    fputs("\"kinds\": [", out);
    for (unsigned kind = SCALAR; kind <= INTERPOLATED; kind++)
        fprintf(out, "%s\"%s\"", kind > 0 ? ", " : "", kind_words(kind));
    fprintf(out, "],\n\"letters\": [\"%c\", \"%c\", ", row_letter(SCALAR, 0), row_letter(REPULSIVE, 0));
    write_levels(out, f, NEAREST, false);
    fputs(", ", out);
    write_levels(out, f, INTERPOLATED, false);
    fputs("],\n\"colours\": [\"", out);
    row_colour(out, &scalar, f->table.levels);
    fputs("\", \"", out);
    row_colour(out, &repulsive, f->table.levels);
    fputs("\"],\n\"levelColours\": ", out);
    write_levels(out, f, INTERPOLATED, true);
}

/* The vertices of each level, three coordinates each, to the bit. */
static void write_vertices(FILE *out, const table_file *f, const icotable_meshes *m) {
    for (uint64_t level = 0; level < f->table.levels; level++) {
        const double *v = icotable_level_vertices(m, level);
        for (uint64_t i = 0; i < 3 * icotable_vertices(level); i++)
            fprintf(out, "%s%.17g", i > 0 ? "," : level > 0 ? ",\n[" : "[", v[i]);
        fputc(']', out);
    }
}

static void write_facts(FILE *out, const table_file *f, const icotable_meshes *m) {
    fprintf(out, "{\"version\": \"%s\", \"bytes\": %zu, \"rmax\": %.17g,\n", ICOTABLE_VERSION, f->count, f->table.grid.rmax);
    write_rows(out, f);
    fputs(",\n\"words\": {", out);
    fprintf(out, "\"18\": \"%s\", \"26\": \"%s\"},\n\"vertices\": [", icotable_words(ICOTABLE_QUERY), icotable_words(ICOTABLE_SPAN));
    write_vertices(out, f, m);
    fputs("]}\n", out);
}

static void write_page(FILE *out, const table_file *f, const icotable_meshes *m) {
    static const struct {
        const char *line;
        void (*write)(FILE *out, const table_file *f, const icotable_meshes *m);
    } marks[] = {{"@name\n", write_name}, {"@facts\n", write_facts}, {"@table\n", write_table}};
    for (size_t i = 0; view_page[i] != NULL; i++) {
        size_t k = 0;
        while (k < 3 && strcmp(view_page[i], marks[k].line) != 0)
            k++;
        if (k < 3)
            marks[k].write(out, f, m);
        else
            fputs(view_page[i], out);
    }
}

/* Two molecules by the library's reader for a viewer. It has none for tables against an atom, whose slabs of any level hold less
 * than one of level 3 of two molecules: of its bounds that of the rows holds for them, and the tool asks. */
static int in_bounds(table_file *f) {
    if (!f->atom)
        view_table(f);
    int status = GOOD;
    if (f->table.number != 0) {
        print_verdict(stderr, f);
        status = FOUND;
    } else if (f->table.rows > ROWS) {
        fprintf(stderr, "%s: refused with %d as %s: %llu rows, where a page has at most %d\n", f->name, ICOTABLE_VIEWER_BOUND, table_words(f->atom),
                (ull)f->table.rows, ROWS);
        f->table.number = ICOTABLE_VIEWER_BOUND;
        status = FOUND;
    }
    if (f->table.number == ICOTABLE_VIEWER_BOUND)
        fputs("  icotable map shows larger tables as a picture, icotable export --csv as text\n", stderr);
    return status;
}

static int view(table_file *f, const char *name) {
    table_meshes m;
    new_file out;
    int status = in_bounds(f);
    if (status != GOOD)
        return status;
    status = open_meshes(&m, f, given("--meshes"));
    if (status == GOOD && begin_new(&out, name) != GOOD)
        status = TROUBLE;
    else if (status == GOOD) {
        write_page(out.to, f, m.meshes);
        status = end_new(&out);
    }
    close_meshes(&m);
    return status;
}

int view_tool(int count, char **names) {
    (void)count;
    const char *out = given("-o");
    if (out == NULL)
        return misused("view", "-o", "is missing");
    table_file f;
    int status = open_table(&f, names[0]);
    if (status == GOOD)
        status = view(&f, out);
    close_table(&f);
    return status;
}
