/* Writing that a full disk, or a kill at any fsync and rename, breaks off; builds that are killed and resumed. */
#include "handles_test.h"

#include <signal.h>
#include <stdio.h>
#include <stdlib.h>
#include <string.h>
#include <sys/resource.h>
#include <sys/wait.h>
#include <unistd.h>

static int count_files(void) {
    char command[500], said[20] = "";
    snprintf(command, sizeof command, "ls -A %s | wc -l", folder);
    FILE *p = popen(command, "r");
    if (p == NULL || fgets(said, sizeof said, p) == NULL)
        exit(2);
    pclose(p);
    return atoi(said);
}

static void full_disk(void) {
    struct rlimit before, small;
    icotable_build_settings s = settings_of(0);
    icotable_build *b = open_build(icotable_build_begin, &s);
    while (step(b, 0))
        continue;
    copy(at("unguarded"), at("full"), -1);
    copy(at("unguarded.meta"), at("full.meta"), -1);
    int files = count_files();
    getrlimit(RLIMIT_FSIZE, &before);
    small = before;
    small.rlim_cur = 5000;
    signal(SIGXFSZ, SIG_IGN);
    setrlimit(RLIMIT_FSIZE, &small);
    is("a full disk", ICOTABLE_HANDLE_NOT_WRITTEN, icotable_build_write(b, at("full")));
    says("a full disk", "full: File too large", icotable_build_said(b));
    setrlimit(RLIMIT_FSIZE, &before);
    is("files left over", (uint64_t)files, (uint64_t)count_files());
    same_file("what was there", at("full"), at("unguarded"));
    is("no folder", ICOTABLE_HANDLE_NOT_WRITTEN, icotable_build_write(b, at("no/such/folder")));
    is("a folder", ICOTABLE_HANDLE_NOT_WRITTEN, icotable_build_write(b, folder));
    is("no name", ICOTABLE_HANDLE_NOT_WRITTEN, icotable_build_write(b, NULL));
    says("no name", "there is no name", icotable_build_said(b));
    is("with room", 0, icotable_build_write(b, at("full")));
    same_file("with room", at("full"), at("pair"));
    icotable_build_close(b);
}

/* A path that holds one table is written with another; the process is killed at one fsync or rename after the other. What is
 * found is one of the two, over its own meshes, or is refused. Each row: the meshes of the table before, of the one after. */
static int killed_at(const icotable_build_settings *s, const char *path, int kills) {
    pid_t child = fork();
    if (child == 0) {
        wrong = 0;
        icotable_build *b = open_build(icotable_build_begin, s);
        while (step(b, 0))
            continue;
        countdown = kills;
        uint64_t number = icotable_build_write(b, path);
        icotable_build_close(b);
        _exit(number == 0 && wrong == 0 ? 0 : 1);
    }
    int status = 1;
    waitpid(child, &status, 0);
    return WIFSIGNALED(status) && WTERMSIG(status) == SIGKILL ? -1 : WEXITSTATUS(status);
}

static void found_after(const char *path, uint64_t *opened, uint64_t *refused) {
    icotable_fault fault;
    icotable_reader *t = icotable_reader_open(path, NULL, &fault);
    if (t == NULL) {
        uint64_t n = fault.number;
        (*refused)++;
        is("refused after a kill", 1, n == ICOTABLE_SEAL_OTHER_TABLE || n == ICOTABLE_HANDLE_OTHER_MESHES || n == ICOTABLE_HANDLE_NO_SEAL);
        return;
    }
    (*opened)++;
    icotable_reader *own = open_reader(at("pair"), NULL), *turned = open_reader(at("turned"), NULL);
    icotable_reader *wanted = icotable_meshes_own(icotable_reader_meshes(t), 2) ? own : turned;
    size_t m, n;
    const uint8_t *a = icotable_reader_file(t, &m), *b = icotable_reader_file(wanted, &n);
    is("a table over its own meshes", 0, m != n || memcmp(a, b, m) != 0);
    icotable_reader_close(own);
    icotable_reader_close(turned);
    icotable_reader_close(t);
}

static void killed_writes(void) {
    uint64_t opened = 0, refused = 0;
    for (int before = 0; before < 3; before++)
        for (int after = 0; after < 2; after++)
            for (int kills = 0, status = -1; status < 0; kills++) {
                const char *path = at("killed"), *meshes[] = {NULL, at("turned.mesh")};
                icotable_build_settings s = settings_of(0);
                unlink(at("killed"));
                unlink(at("killed.meta"));
                unlink(at("killed.mesh"));
                s.meshes = meshes[before % 2];
                if (before < 2)
                    is("the table before", 0, (uint64_t)killed_at(&s, path, -1));
                s.meshes = meshes[after];
                status = killed_at(&s, path, kills);
                is("a write that was not killed", 0, status > 0);
                if (access(path, F_OK) == 0)
                    found_after(path, &opened, &refused);
            }
    is("some kills left a table that opens, some one that does not", 1, opened > 10 && refused > 5);
}

/* ---- kills between calls */

static void killed_builds(int atom, unsigned seed) {
    icotable_build_settings s = settings_of(atom);
    s.journal = at("killed.journal");
    unlink(s.journal);
    int done = 0, kills = 0;
    while (!done && kills < 100) {
        pid_t child = fork();
        if (child == 0) {
            srand(seed + (unsigned)kills);
            wrong = 0;
            icotable_build *b = open_build(icotable_build_open, &s);
            for (int i = rand() % 4; i > 0; i--)
                step(b, atom);
            if (icotable_build_progress(b).step != ICOTABLE_JOURNAL_TO_WRITE)
                kill(getpid(), SIGKILL);
            _exit(icotable_build_write(b, at("resumed")) == 0 && wrong == 0 ? 0 : 1);
        }
        int status = 1;
        waitpid(child, &status, 0);
        done = WIFEXITED(status);
        is("a resumed build", 0, done && WEXITSTATUS(status) != 0);
        kills++;
    }
    is("done", 1, (uint64_t)done);
    same_file("resumed", at("resumed"), at(atom ? "atom" : "pair"));
    finish(open_build(icotable_build_resume, &s), atom, at("resumed"));
    same_file("resumed", at("resumed"), at(atom ? "atom" : "pair"));
}

void test_kills(unsigned seed) {
    full_disk();
    killed_writes();
    for (int atom = 0; atom < 2; atom++)
        killed_builds(atom, seed);
}
