/* map [-o OUT] FILE [FILE]: a picture of the slabs as SVG, distance against dihedral angle or, of a table against an atom, a
 * strip over distance, coloured by kind and level, with the lowest energy of each distance below. Two files stand side by
 * side, a level has one colour in both, and slabs whose rows differ have a frame. */
#include "tools.h"

#include <math.h>
#include <stdlib.h>
#include <string.h>

enum { WIDE = 560, HIGH = 260, STRIP = 40, LEFT = 64, TOP = 60, CURVE = 90, GAP = 46, PANEL = LEFT + WIDE + 24, COLUMNS = 240, LINES = 120, SECOND = 20 };

/* One table's part of the picture. A cell stands for one slab, or in a large table for a block of them. */
typedef struct panel {
    const table_file *file, *other; /* other: to be compared with, or none */
    uint64_t n_r, n_omega, columns, lines;
    uint64_t shades; /* levels of the picture's finest table, which share the colours */
    double x, width, height;
    double *lowest;                 /* for each distance; infinite where it is a wall */
} panel;

void escaped(FILE *out, const char *text) {
    for (; *text; text++)
        switch (*text) {
        case '&': fputs("&amp;", out); break;
        case '<': fputs("&lt;", out); break;
        case '>': fputs("&gt;", out); break;
        case '"': fputs("&quot;", out); break;
        default: fputc(*text, out);
        }
}

const char *base_name(const char *name) {
    const char *slash = strrchr(name, '/');
    return slash ? slash + 1 : name;
}

/* From light at level 0 to dark at the top: more vertices, more ink. */
static void level_colour(FILE *out, unsigned level, uint64_t shades) {
    static const int stops[5][3] = {{200, 226, 112}, {94, 190, 110}, {33, 145, 140}, {52, 96, 141}, {68, 36, 100}};
    double t = shades < 2 ? 2 : 4.0 * level / (double)(shades - 1);
    int k = t >= 4 ? 3 : (int)t;
    int c[3];
    for (int i = 0; i < 3; i++)
        c[i] = (int)lround(stops[k][i] + (t - k) * (stops[k + 1][i] - stops[k][i]));
    fprintf(out, "#%02x%02x%02x", (unsigned)c[0], (unsigned)c[1], (unsigned)c[2]);
}

void row_colour(FILE *out, const row *r, uint64_t shades) {
    if (r->kind == REPULSIVE)
        fputs("#2b2b2b", out);
    else if (r->kind == SCALAR)
        fputs("#efece2", out);
    else
        level_colour(out, r->level, shades);
}

static void rectangle(FILE *out, double x, double y, double w, double h) {
    fprintf(out, "<rect x=\"%.2f\" y=\"%.2f\" width=\"%.2f\" height=\"%.2f\"", x, y, w, h);
}

static double lowest_of(const table_file *f, const row *r) {
    if (r->kind == REPULSIVE)
        return INFINITY;
    if (r->kind == SCALAR)
        return f32_of(r->scalar);
    double least = INFINITY;
    for (uint64_t i = 0; i < per_row(f, r); i++)
        least = fmin(least, energy_of(f, r, i));
    return least;
}

/* The first bin of a cell; the cell's last one is the one before the next cell's first. */
static uint64_t first_bin(uint64_t cell, uint64_t bins, uint64_t cells) {
    return (cell * bins + cells - 1) / cells;
}

/* Whether a slab of the cell's block has another row in the other file. */
static bool cell_differs(const panel *p, uint64_t column, uint64_t line) {
    if (p->other == NULL)
        return false;
    for (uint64_t ri = first_bin(column, p->n_r, p->columns); ri < first_bin(column + 1, p->n_r, p->columns); ri++)
        for (uint64_t oi = first_bin(line, p->n_omega, p->lines); oi < first_bin(line + 1, p->n_omega, p->lines); oi++)
            if (!same_row(p->file, p->other, ri * p->n_omega + oi))
                return true;
    return false;
}

static void cell(FILE *out, const panel *p, uint64_t column, uint64_t line) {
    uint64_t slab = first_bin(column, p->n_r, p->columns) * p->n_omega + first_bin(line, p->n_omega, p->lines);
    row r = row_of(p->file, slab);
    double w = p->width / (double)p->columns, h = p->height / (double)p->lines;
    double x = p->x + w * (double)column, y = TOP + h * (double)(p->lines - 1 - line);
    rectangle(out, x, y, w, h);
    fputs(" shape-rendering=\"crispEdges\" fill=\"", out);
    row_colour(out, &r, p->shades);
    fputs("\"><title>", out);
    print_bins(out, p->file, slab);
    fputs(": ", out);
    print_row(out, p->file, &r);
    fputs("</title></rect>\n", out);
    if (r.kind == NEAREST) {
        rectangle(out, x, y, w, h);
        fputs(" fill=\"url(#nearest)\" pointer-events=\"none\"/>\n", out);
    }
    if (cell_differs(p, column, line)) {
        double inset = w > 8 && h > 8 ? 1 : 0;
        rectangle(out, x + inset, y + inset, w - 2 * inset, h - 2 * inset);
        fputs(" fill=\"none\" stroke=\"#e3342f\" stroke-width=\"2\" pointer-events=\"none\"/>\n", out);
    }
}

static void label(FILE *out, double x, double y, const char *anchor, const char *more, const char *words) {
    fprintf(out, "<text x=\"%.1f\" y=\"%.1f\" text-anchor=\"%s\"%s>", x, y, anchor, more);
    escaped(out, words);
    fputs("</text>\n", out);
}

static void numbered(FILE *out, double x, double y, const char *anchor, double number) {
    char words[40];
    snprintf(words, sizeof words, "%.4g", number);
    label(out, x, y, anchor, "", words);
}

static void dihedral_numbers(FILE *out, const panel *p) {
    double step = p->file->table.grid.omega_step;
    uint64_t every = p->n_omega <= 6 ? 1 : (p->n_omega + 5) / 6;
    for (uint64_t oi = 0; oi < p->n_omega; oi += every)
        numbered(out, p->x - 8, TOP + p->height * (1 - ((double)oi + 0.5) / (double)p->n_omega) + 4, "end", (double)oi * step * DEGREES);
}

static void axes(FILE *out, const panel *p) {
    const icotable_grid *g = &p->file->table.grid;
    uint64_t every = p->n_r <= 8 ? 1 : (p->n_r + 7) / 8;
    for (uint64_t ri = 0; ri < p->n_r; ri += every)
        numbered(out, p->x + p->width * ((double)ri + 0.5) / (double)p->n_r, TOP + p->height + 16, "middle", distance_of(g, ri));
    if (!p->file->atom)
        dihedral_numbers(out, p);
    label(out, p->x + p->width / 2, TOP + p->height + 33, "middle", "", "distance r (unit of the table)");
    if (p->file->atom)
        return;
    char turned[80];
    snprintf(turned, sizeof turned, " transform=\"rotate(-90 %.1f %.1f)\"", p->x - 46, TOP + p->height / 2);
    label(out, p->x - 46, TOP + p->height / 2, "middle", turned, "dihedral omega (degrees)");
}

/* The lowest energy of each distance, cut off above at the depth of the well. */
static void curve(FILE *out, const panel *p) {
    double top = TOP + p->height + GAP, least = 0;
    for (uint64_t ri = 0; ri < p->n_r; ri++)
        least = fmin(least, p->lowest[ri]);
    double depth = least < 0 && isfinite(least) ? -least : 1, zero = top + CURVE / 2.0;
    rectangle(out, p->x, top, p->width, CURVE);
    fputs(" fill=\"none\" stroke=\"#999\"/>\n", out);
    fprintf(out, "<line x1=\"%.1f\" y1=\"%.1f\" x2=\"%.1f\" y2=\"%.1f\" stroke=\"#bbb\"/>\n<polyline fill=\"none\" stroke=\"#34608d\" stroke-width=\"2\" points=\"", p->x, zero,
            p->x + p->width, zero);
    for (uint64_t ri = 0; ri < p->n_r; ri++) {
        double e = fmin(fmax(p->lowest[ri], -depth), depth);
        fprintf(out, "%.1f,%.1f ", p->x + p->width * ((double)ri + 0.5) / (double)p->n_r, zero - e / depth * (CURVE / 2.0 - 4));
    }
    fputs("\"/>\n", out);
    numbered(out, p->x - 8, zero + 4, "end", 0);
    numbered(out, p->x - 8, top + CURVE, "end", -depth);
    label(out, p->x + p->width / 2, top + CURVE + 16, "middle", "", "lowest energy of each distance (unit of the table's energies; cut off above)");
}

/* An item of the legend: Repulsive, Scalar, the levels, nearest. */
static row legend_item(unsigned k, uint64_t levels, char *words, size_t room) {
    row r = {k == 0 ? REPULSIVE : k == 1 ? SCALAR : k == levels + 2 ? NEAREST : INTERPOLATED, k < 2 || k > levels + 1 ? 0 : k - 2, 0, 0};
    if (r.kind == INTERPOLATED)
        snprintf(words, room, "%u %c", r.level, row_letter(r.kind, r.level));
    else
        snprintf(words, room, "%s", r.kind == NEAREST ? "nearest a, b" : r.kind == SCALAR ? "Scalar ." : "Repulsive #");
    return r;
}

static void legend_box(FILE *out, const panel *p, const row *r, double x, double y) {
    rectangle(out, x, y, 14, 14);
    fputs(" stroke=\"#999\" fill=\"", out);
    row_colour(out, r, p->shades);
    fputs("\"/>\n", out);
    if (r->kind == NEAREST) {
        rectangle(out, x, y, 14, 14);
        fputs(" fill=\"url(#nearest)\"/>\n", out);
    }
}

/* In as many lines as it needs, which is what it answers; without a file they are only counted. */
static int legend(FILE *out, const panel *p, double y) {
    double x = p->x;
    int lines = 1;
    for (unsigned k = 0; k < p->file->table.levels + 3; k++) {
        char words[40];
        row r = legend_item(k, p->file->table.levels, words, sizeof words);
        double wide = 18 + 5.8 * (double)strlen(words);
        if (x + wide > p->x + p->width) {
            x = p->x;
            y += SECOND;
            lines++;
        }
        if (out != NULL && k == 2)
            label(out, x, y + 12, "start", "", "Mesh of level");
        x += k == 2 ? 84 : 0;
        if (out != NULL) {
            legend_box(out, p, &r, x, y);
            label(out, x + 18, y + 12, "start", "", words);
        }
        x += wide + 10;
    }
    return lines;
}

static void draw(FILE *out, const panel *p, uint64_t differing) {
    const icotable_table *t = &p->file->table;
    char words[200];
    for (uint64_t column = 0; column < p->columns; column++)
        for (uint64_t line = 0; line < p->lines; line++)
            cell(out, p, column, line);
    rectangle(out, p->x, TOP, p->width, p->height);
    fputs(" fill=\"none\" stroke=\"#555\"/>\n", out);
    label(out, p->x, 26, "start", " font-size=\"16\" font-weight=\"bold\"", base_name(p->file->name));
    snprintf(words, sizeof words, p->file->atom ? "against an atom: %llu distances" : "%llu distances", (unsigned long long)p->n_r);
    if (!p->file->atom)
        snprintf(words + strlen(words), sizeof words - strlen(words), ", %llu dihedral bins", (unsigned long long)p->n_omega);
    snprintf(words + strlen(words), sizeof words - strlen(words), ", %llu levels, %llu energies", (unsigned long long)t->levels, (unsigned long long)t->energies);
    if (p->other != NULL)
        snprintf(words + strlen(words), sizeof words - strlen(words), "; slabs that differ: %llu", (unsigned long long)differing);
    if (p->columns < p->n_r || p->lines < p->n_omega)
        snprintf(words + strlen(words), sizeof words - strlen(words), "; a cell shows the first of several slabs");
    label(out, p->x, 46, "start", "", words);
    axes(out, p);
    curve(out, p);
    legend(out, p, TOP + p->height + GAP + CURVE + 30);
}

static bool prepare(panel *p, const table_file *f, const table_file *other, int place, uint64_t shades) {
    const icotable_grid *g = &f->table.grid;
    *p = (panel){.file = f, .other = other, .shades = shades, .n_r = g->n_r, .n_omega = g->n_omega, .x = LEFT + PANEL * place, .width = WIDE, .height = f->atom ? STRIP : HIGH};
    p->columns = g->n_r < COLUMNS ? g->n_r : COLUMNS;
    p->lines = g->n_omega < LINES ? g->n_omega : LINES;
    p->lowest = calloc(g->n_r, sizeof *p->lowest);
    if (p->lowest == NULL) {
        fprintf(stderr, "icotable: %s: no memory\n", f->name);
        return false;
    }
    for (uint64_t ri = 0; ri < g->n_r; ri++) {
        p->lowest[ri] = INFINITY;
        for (uint64_t oi = 0; oi < g->n_omega; oi++) {
            row r = row_of(f, ri * g->n_omega + oi);
            p->lowest[ri] = fmin(p->lowest[ri], lowest_of(f, &r));
        }
    }
    return true;
}

static void picture(FILE *out, const panel *panels, int count) {
    uint64_t differing = 0;
    for (uint64_t s = 0; panels[0].other != NULL && s < panels[0].file->table.rows; s++)
        differing += !same_row(panels[0].file, panels[0].other, s);
    int wide = PANEL * count, high = 0;
    for (int i = 0; i < count; i++) {
        int own = TOP + (int)panels[i].height + GAP + CURVE + 40 + SECOND * legend(NULL, &panels[i], 0);
        high = own > high ? own : high;
    }
    fprintf(out, "<svg xmlns=\"http://www.w3.org/2000/svg\" viewBox=\"0 0 %d %d\" width=\"%d\" height=\"%d\" font-family=\"sans-serif\" font-size=\"12\">\n", wide, high, wide, high);
    fputs("<defs><pattern id=\"nearest\" width=\"6\" height=\"6\" patternUnits=\"userSpaceOnUse\" patternTransform=\"rotate(45)\">"
          "<rect width=\"2\" height=\"6\" fill=\"#fff\" fill-opacity=\"0.65\"/></pattern></defs>\n<rect width=\"100%\" height=\"100%\" fill=\"#fff\"/>\n",
          out);
    for (int i = 0; i < count; i++)
        draw(out, &panels[i], differing);
    fputs("</svg>\n", out);
}

/* To a new file or to standard output. */
static int show(const char *name, const panel *panels, int count) {
    new_file out;
    if (begin_new(&out, name) != GOOD)
        return TROUBLE;
    picture(out.to, panels, count);
    return end_new(&out);
}

static int map_files(const char *name, table_file *files, int count) {
    int status = GOOD;
    for (int i = 0; i < count; i++)
        if (files[i].table.number != 0) {
            print_verdict(stderr, &files[i]);
            status = FOUND;
        }
    if (status != GOOD)
        return status;
    bool compared = count == 2 && same_slabs(&files[0], &files[1]);
    panel panels[2] = {{0}, {0}};
    uint64_t shades = 0;
    for (int i = 0; i < count; i++)
        shades = files[i].table.levels > shades ? files[i].table.levels : shades;
    for (int i = 0; i < count; i++)
        if (!prepare(&panels[i], &files[i], compared ? &files[1 - i] : NULL, i, shades))
            status = TROUBLE;
    if (status == GOOD)
        status = show(name, panels, count);
    for (int i = 0; i < count; i++)
        free(panels[i].lowest);
    return status;
}

int map_tool(int count, char **names) {
    table_file files[2] = {{0}, {0}};
    int status = GOOD;
    for (int i = 0; i < count; i++)
        if (open_table(&files[i], names[i]) != GOOD)
            status = TROUBLE;
    if (status == GOOD)
        status = map_files(given("-o"), files, count);
    for (int i = 0; i < count; i++)
        close_table(&files[i]);
    return status;
}
