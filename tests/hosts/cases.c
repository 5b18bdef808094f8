/* The table of cases that the suites of C, Rust and Python share, run over the C handles: cases CASES FOLDER, where
 * CASES is hosts/cases by its whole path, and FOLDER is empty. hosts/cases/cases.txt says what its lines mean. cases
 * meshes FOLDER writes the mesh files of hosts/cases. */
#include "icotable_handles.h"
#include "support.h"

#include <signal.h>
#include <stdio.h>
#include <stdlib.h>
#include <string.h>
#include <sys/stat.h>
#include <sys/wait.h>
#include <unistd.h>

enum { WORDS = 8, PER = 42 * 42, MOST = 1 << 20 };

static icotable_build *build;
static icotable_reader *table;
static int atom;
static const char *shared; /* hosts/cases */
static uint8_t bytes[MOST];

/* ---- builds */

static uint64_t mixed(uint64_t z) {
    z = (z ^ z >> 30) * 0xBF58476D1CE4E5B9;
    z = (z ^ z >> 27) * 0x94D049BB133111EB;
    return z ^ z >> 31;
}

static const char *mesh_file(const char *name) {
    static char path[1000];
    snprintf(path, sizeof path, "%s/%s.mesh", shared, name);
    return path;
}

static void take_option(icotable_build_settings *s, const char *option) {
    bool bad = strcmp(option, "badlabel") == 0, labelled = strncmp(option, "label=", 6) == 0;
    if (bad || labelled)
        s->label = bad ? "a\nb" : option + 6;
    if (bad || labelled || strcmp(option, "v2") == 0)
        s->flags &= ~(unsigned)ICOTABLE_JOURNAL_FORMAT_1;
    else if (strcmp(option, "unguarded") == 0)
        s->flags |= ICOTABLE_JOURNAL_UNGUARDED;
    else if (strcmp(option, "foreign") == 0)
        s->meshes = mesh_file("foreign");
    else if (strcmp(option, "beta2") == 0)
        s->grid.beta = 2;
    else
        s->top = 0;
}

/* KIND JOURNAL OPTION.. */
static icotable_build_settings settings_of(char **words) {
    icotable_build_settings s = {.atom = strcmp(words[0], "atom") == 0, .top = 1, .journal = words[1], .flags = ICOTABLE_JOURNAL_FORMAT_1};
    s.grid = (icotable_grid){.rmax = s.atom ? 4 : 3, .dr = 1, .omega_step = 3, .threshold = 0.5, .beta = 1};
    for (char **option = words + 2; *option != NULL; option++)
        take_option(&s, *option);
    return s;
}

typedef icotable_build *opening(const icotable_build_settings *, icotable_fault *);

static icotable_build *opened(opening *how, char **words, uint64_t *number) {
    icotable_fault fault;
    icotable_build_settings s = settings_of(words);
    icotable_build *b = how(&s, &fault);
    *number = fault.number;
    return b;
}

static uint64_t open_build(opening *how, char **words) {
    uint64_t number;
    icotable_build_close(build);
    build = opened(how, words, &number);
    atom = strcmp(words[0], "atom") == 0;
    return number;
}

static uint64_t do_begin(char **words) {
    return open_build(icotable_build_begin, words);
}

static uint64_t do_resume(char **words) {
    return open_build(icotable_build_resume, words);
}

static uint64_t do_open(char **words) {
    return open_build(icotable_build_open, words);
}

/* HOW KIND JOURNAL OPTION..: beside the build that is open. */
static uint64_t do_also(char **words) {
    uint64_t number;
    bool begin = strcmp(words[0], "begin") == 0, resume = strcmp(words[0], "resume") == 0;
    opening *how = begin ? icotable_build_begin : resume ? icotable_build_resume : icotable_build_open;
    icotable_build_close(opened(how, words + 1, &number));
    return number;
}

static uint64_t set(uint64_t ri, uint64_t oi) {
    static const double heights[] = {1e4, 3, 0.05, 3};
    double energies[PER];
    uint64_t n = icotable_vertices(icotable_build_progress(build).level), count = atom ? n : n * n;
    for (uint64_t i = 0; i < count; i++) {
        uint64_t drawn = mixed((ri << 48) + (oi << 40) + i) % 1000;
        energies[i] = (ri == 0 ? 1000 : 0) + heights[ri % 4] * ((double)drawn / 1000);
    }
    return icotable_build_set(build, ri, oi, energies, count);
}

static uint64_t do_set(char **words) {
    return set(strtoull(words[0], NULL, 10), strtoull(words[1], NULL, 10));
}

static uint64_t do_settle(char **words) {
    return icotable_build_settle(build, strtoull(words[0], NULL, 10)).number;
}

static uint64_t do_go(char **words) {
    uint64_t number = 0;
    for (unsigned long calls = strtoul(words[0], NULL, 10); number == 0 && calls > 0; calls--) {
        icotable_progress p = icotable_build_progress(build);
        if (p.step == ICOTABLE_JOURNAL_TO_WRITE)
            break;
        number = p.step == ICOTABLE_JOURNAL_TO_SET ? set(p.ri, p.oi) : icotable_build_settle(build, p.ri).number;
    }
    return number;
}

static uint64_t do_write(char **words) {
    return icotable_build_write(build, words[0]);
}

static uint64_t do_tail(char **words) {
    double coefficient = -1.5, kappa = 0.25;
    uint32_t power = 6;
    return icotable_build_write_tail(build, words[0], &(icotable_terms){&coefficient, &kappa, &power, 1, 17.5});
}

static uint64_t do_close(char **words) {
    (void)words;
    icotable_build_close(build);
    build = NULL;
    return 0;
}

/* CALLS KIND JOURNAL OPTION..: a process opens the build, makes so many calls and is killed. */
static uint64_t do_kill(char **words) {
    int status;
    pid_t child = fork();
    if (child == 0) {
        if (do_open(words + 1) == 0 && do_go(words) == 0)
            raise(SIGKILL);
        _exit(1);
    }
    return waitpid(child, &status, 0) == child && WIFSIGNALED(status) && WTERMSIG(status) == SIGKILL ? 0 : 1;
}

/* ---- tables */

/* KIND TABLE [MESHES] */
static uint64_t do_read(char **words) {
    icotable_fault fault;
    icotable_reader_close(table);
    table = icotable_reader_open(words[1], words[2] == NULL ? NULL : mesh_file(words[2]), &fault);
    atom = strcmp(words[0], "atom") == 0;
    return table == NULL || !icotable_reader_atom(table) == !atom ? fault.number : ICOTABLE_HANDLE_OTHER_KIND;
}

static double energy(int i) {
    double r = i / 8.0, omega = i / 4.0, a[] = {i % 5 - 2, i % 3 - 1, 1}, b[] = {1, i % 4 - 2, i % 7 - 3};
    return atom ? icotable_reader_atom_energy(table, r, a[0], a[1], a[2]).energy
                : icotable_reader_energy(table, r, omega, a[0], a[1], a[2], b[0], b[1], b[2]).energy;
}

static uint64_t summed(uint32_t sum, const char *wanted) {
    if (sum == strtoul(wanted, NULL, 16))
        return 0;
    printf("the sum is %08X\n", (unsigned)sum);
    return 1;
}

static uint64_t do_energies(char **words) {
    double energies[32];
    for (int i = 0; i < 32; i++)
        energies[i] = energy(i);
    return summed(icotable_crc32_(0, energies, sizeof energies), words[0]);
}

static bool known(enum icotable_known is, const char *word) {
    return is == (strcmp(word, "yes") == 0 ? ICOTABLE_YES : strcmp(word, "no") == 0 ? ICOTABLE_NO : ICOTABLE_UNKNOWN);
}

static uint64_t do_sealed(char **words) {
    static icotable_seal s;
    bool read = icotable_seal_read(&s, words[0], NULL) == 0;
    const char *label = strcmp(words[3], "-") == 0 ? "" : words[3];
    return read && known(s.guarded, words[1]) && known(s.whole, words[2]) && strcmp(s.identity.label, label) == 0 ? 0 : 1;
}

/* ---- files */

static size_t read_all(const char *name) {
    FILE *f = fopen(name, "rb");
    size_t count = f == NULL ? 0 : fread(bytes, 1, MOST, f);
    if (f == NULL)
        printf("%s is not there\n", name);
    else
        fclose(f);
    return count;
}

static uint64_t write_all(const char *name, size_t count) {
    FILE *f = fopen(name, "wb");
    return f != NULL && fwrite(bytes, 1, count, f) == count && fclose(f) == 0 ? 0 : 1;
}

static uint64_t do_copy(char **words) {
    return write_all(words[1], read_all(words[0]));
}

static uint64_t do_cut(char **words) {
    read_all(words[0]);
    return write_all(words[0], strtoul(words[1], NULL, 10));
}

static uint64_t do_append(char **words) {
    size_t count = read_all(words[0]), more = strtoul(words[1], NULL, 10);
    memset(bytes + count, 'x', more);
    return write_all(words[0], count + more);
}

static uint64_t do_flip(char **words) {
    size_t count = read_all(words[0]);
    bytes[strtoul(words[1], NULL, 10)] ^= 64;
    return write_all(words[0], count);
}

static uint64_t do_remove(char **words) {
    return unlink(words[0]) == 0 ? 0 : 1;
}

static uint64_t do_link(char **words) {
    return symlink(words[0], words[1]) == 0 ? 0 : 1;
}

static uint64_t do_folder(char **words) {
    return mkdir(words[0], 0777) == 0 ? 0 : 1;
}

static uint64_t do_there(char **words) {
    return access(words[0], F_OK) == 0 ? 0 : 1;
}

static uint64_t do_gone(char **words) {
    return access(words[0], F_OK) == 0 ? 1 : 0;
}

static uint64_t do_sum(char **words) {
    return summed(icotable_crc32_(0, bytes, read_all(words[0])), words[1]);
}

/* ---- the table of cases */

typedef struct verb {
    const char *name;
    uint64_t (*made)(char **words);
} verb;

static const verb verbs[] = {
    {"begin", do_begin}, {"resume", do_resume}, {"open", do_open}, {"also", do_also}, {"set", do_set},
    {"settle", do_settle}, {"go", do_go}, {"write", do_write}, {"tail", do_tail}, {"close", do_close},
    {"kill", do_kill}, {"read", do_read}, {"energies", do_energies}, {"copy", do_copy}, {"cut", do_cut},
    {"append", do_append}, {"flip", do_flip}, {"remove", do_remove}, {"link", do_link}, {"folder", do_folder},
    {"there", do_there}, {"gone", do_gone}, {"sum", do_sum}, {"sealed", do_sealed},
};

static uint64_t made(char **words) {
    for (size_t i = 0; i < sizeof verbs / sizeof verbs[0]; i++)
        if (strcmp(words[0], verbs[i].name) == 0)
            return verbs[i].made(words + 1);
    printf("%s is no verb\n", words[0]);
    return 1;
}

/* The words in front of the =, NULL behind them; gives the number behind it, 0 without one. */
static uint64_t parted(char *line, char *words[WORDS + 1]) {
    size_t count = 0;
    for (char *word = strtok(line, " \n"); word != NULL && count < WORDS; word = strtok(NULL, " \n"))
        words[count++] = word;
    words[count] = NULL;
    if (count < 3 || strcmp(words[count - 2], "=") != 0)
        return 0;
    words[count - 2] = NULL;
    return strtoull(words[count - 1], NULL, 10);
}

/* Each case has a folder of its own. */
static void begin_case(unsigned cases) {
    char name[40];
    snprintf(name, sizeof name, "%s%u", cases == 1 ? "" : "../", cases);
    do_close(NULL);
    icotable_reader_close(table);
    table = NULL;
    if (mkdir(name, 0777) != 0 || chdir(name) != 0)
        exit(2);
}

static int run(FILE *in) {
    char line[200], text[200], name[200] = "";
    char *words[WORDS + 1];
    unsigned cases = 0, wrong = 0;
    while (fgets(line, sizeof line, in) != NULL) {
        strcpy(text, line);
        uint64_t wanted = parted(line, words), number;
        if (words[0] == NULL || words[0][0] == '#')
            continue;
        if (strcmp(words[0], "case") == 0) {
            begin_case(++cases);
            strcpy(name, words[1]);
        } else if ((number = made(words)) != wanted) {
            wrong++;
            printf("%s: %llu: %s", name, (unsigned long long)number, text);
        }
    }
    begin_case(cases + 1);
    printf("cases: %u cases, %u steps wrong\n", cases, wrong);
    return wrong > 0;
}

/* ---- mesh files */

/* The library's own, with the axes turned round where they are to be others. */
static int save_meshes(const char *folder, const char *name, uint64_t top, bool turned) {
    icotable_meshes m;
    shared = folder;
    if (icotable_make_meshes(&m, top) != 0)
        return 1;
    for (size_t v = 0; turned && v < m.vertices_count; v += 3) {
        double x = m.vertices[v];
        m.vertices[v] = m.vertices[v + 1], m.vertices[v + 1] = m.vertices[v + 2], m.vertices[v + 2] = x;
    }
    uint64_t number = icotable_meshes_save(&m, mesh_file(name), NULL);
    icotable_free_meshes(&m);
    return number != 0;
}

int main(int count, char **words) {
    char path[1000];
    if (count == 3 && strcmp(words[1], "meshes") == 0)
        return save_meshes(words[2], "own", 1, false) || save_meshes(words[2], "small", 0, false) ||
               save_meshes(words[2], "foreign", 1, true);
    snprintf(path, sizeof path, "%s/cases.txt", count == 3 ? words[1] : "");
    FILE *in = fopen(path, "r");
    if (in == NULL || chdir(words[2]) != 0)
        return fprintf(stderr, "usage: cases CASES FOLDER, cases meshes FOLDER\n"), 2;
    shared = words[1];
    return run(in);
}
