#include "verbs.h"

#include "tools.h"

#include <string.h>

#define MANY (1 << 20)
#define JSON {"--json", NULL, NULL, "One JSON object to standard output, for scripts."}
#define SLICE(what) {"--slice", NULL, "RI", what}
#define OUTPUT(what) {"-o", "--output", "OUT", what}
#define MESHES(what) {"--meshes", NULL, "FILE", what}
#define JOURNAL_MESHES MESHES("The mesh file of a journal over other meshes than the library's own.")

const verb verbs[] = {
    {"inspect", "FILE", "what a table holds, or what refuses it",
     "The grid, the levels, the rows by kind and level, the energies, the long-range tail, what its seal says of the build, and a letter for each slab of a "
     "table of at most 400 by 400 slabs.",
     1, 1,
     {{"--resolution", NULL, NULL, "How far the vertices of its levels lie apart, and how far a direction can lie from the nearest of them."}, JSON},
     inspect_tool},
    {"verify", "FILE..", "accepted, or the number, its words and the byte",
     "The library's verdict on each file. The byte is a hint by the tool's own walk of the file. Where there is a seal, FILE.meta, the table has to be the "
     "sealed one.",
     1, MANY,
     {{"--viewer", NULL, NULL, "Under the bounds of a viewer: tables of two molecules of at most 4 levels and 4096 rows."},
      {"--strict", NULL, NULL, "Status 1 also unless a seal says that the guard was on, every slab was set and every slice settled."}, JSON},
     verify_tool},
    {"diff", "A B", "whether and why two tables differ",
     "First a summary of both tables as wholes, whatever is listed behind it: the causes (meshes, settings, kind, level, scalar, energies, tail), the settings that "
     "differ, how many slabs have another row and for which cause, how many energies differ and by how much, and what the tables' seals say. Then the slabs whose row differs, the first of "
     "them. The status is that of both tables as wholes. Tables that are refused are not compared: status 2.",
     2, 2,
     {{"--limit", NULL, "N", "List at most so many slabs, or all of them; 20 without this option, none with 0. N is a whole number or the word all."},
      SLICE("List only slabs of distance bin RI, which are counted from 0."), JSON,
      MESHES("The mesh file of a table that has no seal. A table with a seal is read with the meshes of its seal, or refused.")},
     diff_tool},
    {"map", "FILE [FILE]", "a picture of the slabs (SVG)",
     "Distance against dihedral angle or, against an atom, a strip over distance, coloured by kind and level, with the lowest energy of each distance below. "
     "Two files stand side by side; a level has one colour in both, and slabs whose rows differ have a frame.",
     1, 2, {OUTPUT("Write to a file, which must not be there yet, and not to standard output.")}, map_tool},
    {"view", "FILE -o PAGE.html", "a page that shows a table in a browser",
     "One page with the whole table in it, which fetches nothing: the map of its slabs, the row and the energies of the slab that is chosen by a click or by "
     "the arrow keys, the profile over distance, and the smallest and largest energy over a span of distances. For tables of two molecules that pass verify "
     "--viewer, at most 4 levels and 4096 rows, and for tables against an atom of at most 4096 rows; map and export take larger ones. The page is somewhat "
     "longer than four thirds of the table.",
     1, 1,
     {OUTPUT("Where the page goes, a file that must not be there yet; it has to be named. - is standard output."),
      MESHES("The mesh file of the table. Without it: by its seal the one beside it, or the library's own meshes.")},
     view_tool},
    {"export", "--csv FILE", "the slabs or the energies as text for other programs",
     "A line of column names, then one line a slab: ri, oi, r, omega, kind, level, letter, offset, energies (how many), scalar, lowest, highest. With "
     "--energies one line an energy: ri, oi, r, omega, level, a, b, energy. Against an atom there are no columns oi, omega and b. Distances r have the table's "
     "unit, omega is in radians, a and b are numbers of vertices; a place is empty where a row has no such number. Floats come back to the bit; infinities are "
     "inf and -inf, a NaN is nan.",
     1, 1,
     {{"--csv", NULL, NULL, "Comma-separated values, the one format that there is; it has to be named."},
      {"--energies", NULL, NULL, "The energies of Mesh rows, one a line, and not the slabs."},
      SLICE("Only slabs of distance bin RI, which are counted from 0."),
      OUTPUT("Write to a file, which must not be there yet, and not to standard output.")},
     export_tool},
    {"repack", "IN OUT", "a loosely packed table, packed",
     "Writes the packed table of one with gaps, shared parts or another order of its energies to OUT, which must not be there yet. A packed table comes back "
     "as it is.",
     2, 2, {{0}}, repack_tool},
    {"import", "SAVE OUT", "a save of the Rust's icotable, as a table",
     "Writes the table of a save, packed, to OUT, its meshes to OUT.mesh, neither of which must be there yet, and a seal to OUT.meta, and says what an audit of "
     "its rows finds. SAVE "
     "may be -, too.",
     2, 2, {{0}}, import_tool},
    {"size", "RMIN RMAX DR [STEP] TOP", "the memory, file and comparisons of a build",
     "What a build of levels 0 to TOP needs at most, for a reservation; without STEP, in radians, against an atom. The seconds are an estimate.",
     4, 5, {{"--terms", NULL, "N", "With so many terms of a long-range tail; not against an atom."}, JSON}, size_tool},
    {"status", "JOURNAL", "how far a build is, and what to sample next",
     "Plays the calls of a build's journal and alters nothing; a build may have it open.",
     1, 1, {{"--id", NULL, NULL, "The id of the build alone, from the journal's head; nothing is played."}, JSON, JOURNAL_MESHES}, status_tool},
    {"slab", "FILE", "which slab a slab file holds, and of which build",
     "The bins, the level, and the hash, the id and the label of its build.",
     1, 1, {JSON}, slab_tool},
    {"replay", "JOURNAL -o FILE", "the table of a journal's calls",
     "Plays the calls of a build's journal and writes its table to FILE, which must not be there yet, and its seal to FILE.meta; over other meshes than the "
     "library's own these to FILE.mesh.",
     1, 1,
     {OUTPUT("Where the table goes; it has to be named."), JOURNAL_MESHES,
      {"--unguarded", NULL, NULL, "Also with slabs missing, slices unsettled, or slices out of order."}},
     replay_tool},
    {"begin", "JOURNAL --rmin X --rmax X --dr X --omega-step X --threshold X --beta X --top N", "a new journal, for a build by slab files",
     "Begins a journal over the meshes that the tool makes. Where it is there already with the same settings nothing is altered but a torn end, so that a job "
     "that is started again can begin with it.",
     1, 1,
     {{"--rmin", NULL, "X", "The first distance."},
      {"--rmax", NULL, "X", "Where the distances end."},
      {"--dr", NULL, "X", "The width of a distance bin."},
      {"--omega-step", NULL, "X", "The width of a dihedral bin, in radians."},
      {"--atom", NULL, NULL, "Against an atom, in the place of --omega-step."},
      {"--threshold", NULL, "X", "The threshold of the gradient, per radian."},
      {"--beta", NULL, "X", "The beta of the Boltzmann weight exp(-beta E): one over the unit of the energies."},
      {"--top", NULL, "N", "The finest level."},
      {"--label", NULL, "TEXT", "Your words for what is sampled: molecules, force field. Slab files, seals and inspect show it; a build with another label is another build."},
      {"--id", NULL, "HEX", "The id of a build whose journal was lost while its slab files are there, as icotable slab shows it; one at random without this option."}},
     begin_tool},
    {"collect", "JOURNAL FOLDER", "slab files into a journal, and what to sample next",
     "Sets the slabs of the current slice whose files are in FOLDER, settles the slice when it is whole, and so on from contact outwards. The last line is for "
     "a script: slice RI level L tasks 0-N missing .., with status 1, where there is more to sample; whole N slices, with status 0, where the journal has the "
     "whole table. It alters no file of the folder.",
     2, 2, {JOURNAL_MESHES}, collect_tool},
};

const size_t verbs_count = sizeof verbs / sizeof verbs[0];

const option common_options[] = {
    {"--help", "-h", NULL, "This help."},
    {"--version", NULL, NULL, "The version."},
    {"--color", NULL, "auto|always|never", "Colours on standard output. auto, which is the default: on a terminal, unless NO_COLOR is set or TERM is dumb."},
    {0},
};

const option main_options[] = {
    {"--help", "-h", NULL, "The verbs, a line each; icotable VERB --help tells more of one."},
    {"--version", NULL, NULL, "The version."},
    {"--man", NULL, NULL, "The man page, for man -l."},
    {"--completion", NULL, NULL, "The completion for bash, and for zsh behind bashcompinit."},
    {0},
};

const char *const notes[] = {
    ("The status is 0 for good or equal, 1 for refused or different, 2 for trouble: a file that cannot be read, output that cannot be written whole, words that "
     "are not right."),
    "A table FILE that is - is standard input, which one call reads once. A file called - is ./-. Behind the word -- no word is an option.",
    "No file that is read is ever written to, but for the journal of begin and collect, and no file that is there is replaced.",
    "Rows have one letter in every verb: # Repulsive, . Scalar, A Mesh interpolated of level 0, B of level 1 and so on to P, a, b, .. p Mesh nearest.",
    "In JSON the numbers that it does not have are the strings \"Infinity\", \"-Infinity\" and \"NaN\"; bytes of a file's name that are not UTF-8 are U+FFFD.",
};
const size_t notes_count = sizeof notes / sizeof notes[0];

const verb *verb_named(const char *name) {
    for (size_t i = 0; i < verbs_count; i++)
        if (strcmp(name, verbs[i].name) == 0)
            return &verbs[i];
    return NULL;
}
