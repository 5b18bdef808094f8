/* What the tools share: a table file with the library's verdict on it, its rows, and where a refused file goes wrong.
 * The status of every tool is diff's: 0 for good or equal, 1 for refused or different, 2 for trouble. */
#ifndef TOOLS_H
#define TOOLS_H

#include "icotable_journal.h"

#include <stdbool.h>
#include <stdio.h>

enum { GOOD = 0, FOUND = 1, TROUBLE = 2 };

/* A file in memory, and what the library's reader for its kind answered, or its reader for a viewer. A table against an atom
 * is held like one of two molecules that has one dihedral bin and no terms; its step is 0. */
typedef struct table_file {
    const char *name;
    uint8_t *bytes;
    size_t count;
    bool atom, viewer, input; /* input: from standard input */
    icotable_table table;
} table_file;

enum { SCALAR = 0, REPULSIVE = 1, NEAREST = 2, INTERPOLATED = 3 };

/* A slab's row as the file has it. */
typedef struct row {
    unsigned kind, level;
    uint32_t offset, scalar;
} row;

/* A term of the long-range tail. */
typedef struct term {
    double coefficient, kappa;
    uint32_t power;
} term;

/* Where and why a file is refused. */
typedef struct place {
    uint64_t number;
    size_t byte;
    char why[200];
} place;

/* words.c: the value of an option that was given, "" where it has none; NULL where it was not given. */
const char *given(const char *name);

/* colour.c: GOOD, or TROUBLE where --color is none of its words. To paint is to write an escape code to standard output, where
 * colour is wanted, and PLAIN ends it. */
#define PLAIN "0"
#define RED "31"
#define GREEN "32"
#define BOLD "1"
int choose_colour(void);
void paint(FILE *out, const char *code);
void paint_row(unsigned kind, unsigned level);

/* json.c: items of an object have keys, those of an array none (NULL). Doubles and floats come back to the bit; what JSON has no
 * number for is "Infinity", "-Infinity" or "NaN". */
void json_open(const char *key, char bracket);
void json_close(char bracket);
void json_end(void);
void json_text(const char *key, const char *text);
void json_count(const char *key, uint64_t n);
void json_flag(const char *key, bool flag);
void json_null(const char *key);
void json_double(const char *key, double x);
void json_float(const char *key, float x);

/* file.c: reads the whole file, or standard input for -, and has the library look it over, as a table against an atom where its first count is that
 * of one. TROUBLE, with a line to standard error, where it cannot be read; GOOD otherwise, whatever the verdict. */
int open_table(table_file *f, const char *name);
/* Reads it, and asks nothing of it. */
int read_named(table_file *f, const char *name);
/* Looks an open file over once more, under a viewer's bounds: a viewer opens tables of two molecules alone. */
void view_table(table_file *f);
void close_table(table_file *f);
/* What the reader of its kind answers; a table against an atom with one dihedral bin. */
icotable_table read_table(const uint8_t *bytes, size_t count, bool atom);
const char *table_words(bool atom);
uint32_t u32_of(const uint8_t *bytes);
double f64_of(const uint8_t *bytes);
float f32_of(uint32_t bits);
row row_of(const table_file *f, uint64_t slab);
term term_of(const table_file *f, uint64_t i);
/* Where there are terms: what their sum is multiplied by. */
double prefactor_of(const table_file *f);
bool same_slabs(const table_file *f, const table_file *g);
bool same_row(const table_file *f, const table_file *g, uint64_t slab);
/* Of two Mesh rows of one level: whether they hold the same energies, by their bits. */
bool same_energies(const table_file *f, const table_file *g, const row *r, const row *s);
float energy_of(const table_file *f, const row *r, uint64_t i);
/* The energies that a level's Mesh row holds, and those of a row. */
uint64_t per_level(bool atom, uint64_t level);
uint64_t per_row(const table_file *f, const row *r);
const char *kind_words(unsigned kind);

/* inspect and status: what a level that was lost inside the wall means. */
#define LEVEL_LOST \
    "the level dropped before the first interpolated slice, as it does inside a wall: the well has a coarser mesh " \
    "than the top level's; build the table again with a larger rmin"
/* A line to standard error, and TROUBLE; and why the last one was. */
int trouble(const char *name, const char *why);
const char *last_trouble(void);
/* A row's letter, the same in every verb. */
char row_letter(unsigned kind, unsigned level);
/* The lowest and the highest energy of a Mesh row. */
void energy_span(const table_file *f, const row *r, float *least, float *most);
#define DEGREES 57.29577951308232
double distance_of(const icotable_grid *g, uint64_t ri);
void print_row(FILE *out, const table_file *f, const row *r);
/* A slab's bins, and where they are. */
void print_slab(FILE *out, const table_file *f, uint64_t slab);
void print_bins(FILE *out, const table_file *f, uint64_t slab);

/* output.c: GOOD where OUT is not there: as IN, under whatever name, or as another file. */
int free_name(const char *in, const char *out);
/* A file that is being written: begun, written to, and ended also where something else goes wrong. It is whole, on disk and under
 * its own name only when it is ended with GOOD, and has the rights that a new file has. A file that is there is not replaced.
 * Without a name, or as -, it is standard output. */
typedef struct new_file {
    const char *name;
    char *under;
    int file;
    FILE *to;
} new_file;
int begin_new(new_file *n, const char *out);
int end_new(new_file *n);
int write_new(const char *out, const uint8_t *bytes, size_t count);

/* numbers.c: a word of the command line as a number, and as a whole one; false where it is none. */
bool number_of(const char *word, double *x);
bool whole_of(const char *word, uint64_t *n);

/* walk.c: whether the bits are those of a NaN; the one NaN that a Scalar row holds. */
enum { TABLE_NAN = 0x7FC00000 };
bool is_nan(uint32_t bits);
/* The questions of read, 13 to 17, 23 and a viewer's 24, once more, by the host, for the byte alone: a hint. */
place find_place(const uint8_t *bytes, size_t count, bool atom, bool viewer);
/* verdict.c: the library's number in words, and the byte where the walk agrees with it. */
void print_verdict(FILE *out, const table_file *f);
/* The same as items of a JSON object. */
void json_verdict(const table_file *f);

/* map.c: a text in HTML or SVG, a file's name without its folder, and a row's colour in a picture whose finest table has so many
 * levels, such as #efece2. */
void escaped(FILE *out, const char *text);
const char *base_name(const char *name);
void row_colour(FILE *out, const row *r, uint64_t shades);

/* resolution.c: for each level of a table how far its vertices lie apart and from a direction, over the meshes of mesh.h, and
 * the rows that have it; in lines, or as an item of a JSON object. */
int print_resolution(const table_file *f, bool json);

/* journal.c: plays a journal over the meshes that mesh.h makes, or those of --meshes, flags being those of resume; the number that refuses it, with its
 * words in said, or 0. Close it and free the meshes in any case. */
uint64_t play_journal(icotable_journal *j, icotable_meshes *meshes, const char *name, unsigned flags);
/* A journal is a file of its own, which a build may have open: TROUBLE for standard input. */
int journal_named(const char *name);
/* A line with the number and its words; TROUBLE where there is nothing to refuse, FOUND otherwise. */
int refused_journal(const char *name, uint64_t number, const char *said);

/* The table of a journal's calls to a name that is free, with its seal and, where it needs one, its mesh file. */
int save_table(icotable_journal *j, const char *name, const char *out, const uint8_t *bytes, size_t length, bool replace);

/* slab.c: the id of a build in 32 hexadecimal digits, and from them; whether there is one; id and label as lines, and in JSON. */
const char *id_digits(const uint8_t id[16]);
bool id_of(const char *digits, uint8_t id[16]);
bool has_id(const icotable_identity *i);
void print_identity(const icotable_identity *i);
void json_identity(const icotable_identity *i);

/* meshes.c: the meshes that a table is read with, as the reader takes them: those of a mesh file that is named; by its seal the mesh file
 * beside it or the library's own; without a seal the library's own, unless there is a mesh file beside it. FOUND, with a line to standard
 * error, where the reader refuses it. Close it in any case. */
typedef struct table_meshes {
    struct icotable_reader *reader;
    icotable_meshes held;
    const icotable_meshes *meshes;
} table_meshes;
int open_meshes(table_meshes *t, const table_file *f, const char *meshes);
void close_meshes(table_meshes *t);
/* Whether there is a seal beside the table, good or not. */
bool has_seal(const table_file *f);
/* Those of a journal with so many levels: of --meshes FILE, or the library's own. The number that refuses them, with its words. */
uint64_t journal_meshes(icotable_meshes *m, uint64_t levels, char *said, size_t room);

/* seal.c: lines on the seal beside a table, or an item of a JSON object, and the verdict on it; GOOD without a word where there is
 * none. */
int verify_seal(const table_file *f, bool json, bool strict);
/* What the seals of two tables say of samples and settings; nothing where neither has one. */
void diff_seals(const table_file *f, const table_file *g, bool json);
/* Whether the seals of both say that all settings are equal. */
bool sealed_alike(const table_file *f, const table_file *g);
/* Lines on what the seal of a table says of its build, or an item of a JSON object; nothing where there is none that is the table's. */
void show_seal(const table_file *f, bool json);

int inspect_tool(int count, char **names);
int verify_tool(int count, char **names);
int diff_tool(int count, char **names);
int map_tool(int count, char **names);
int view_tool(int count, char **names);
int export_tool(int count, char **names);
int repack_tool(int count, char **names);
int import_tool(int count, char **names);
int size_tool(int count, char **names);
int status_tool(int count, char **names);
int slab_tool(int count, char **names);
int replay_tool(int count, char **names);
int begin_tool(int count, char **names);
int collect_tool(int count, char **names);

#endif
