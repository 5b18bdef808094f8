/* Refusals of readers, and meshes that are not the library's own. */
#include "handles_test.h"

#include <fenv.h>
#include <stdbool.h>
#include <stdio.h>
#include <stdlib.h>
#include <string.h>
#include <unistd.h>

static void alter(const char *name, long byte) {
    FILE *f = fopen(name, "r+b");
    if (f == NULL || fseek(f, byte, SEEK_SET) != 0)
        exit(2);
    int c = fgetc(f);
    if (fseek(f, byte, SEEK_SET) != 0 || fputc(c ^ 1, f) == EOF || fclose(f) != 0)
        exit(2);
}

static void refused_reader(const char *what, const char *path, const char *meshes, uint64_t number, const char *words) {
    icotable_fault fault;
    faults(what, icotable_reader_open(path, meshes, &fault), number, words, &fault);
}

static void refused_readers(void) {
    refused_reader("absent", at("nothing"), NULL, ICOTABLE_HANDLE_TROUBLE, "nothing: No such file");
    refused_reader("no name", NULL, NULL, ICOTABLE_HANDLE_TROUBLE, "there is no name");
    refused_reader("a folder", folder, NULL, ICOTABLE_HANDLE_TROUBLE, "not a regular file");
    refused_reader("a device", "/dev/null", NULL, ICOTABLE_HANDLE_TROUBLE, "not a regular file");
    copy(at("pair"), at("empty"), 0);
    refused_reader("empty", at("empty"), NULL, ICOTABLE_SECTIONS, "of two molecules");
    copy(at("atom"), at("cut"), 100);
    refused_reader("cut", at("cut"), NULL, ICOTABLE_SECTIONS, "against an atom");
    copy(at("pair"), at("other"), -1);
    icotable_reader_close(open_reader(at("other"), NULL));
    copy(at("atom.meta"), at("other.meta"), -1);
    refused_reader("the other kind's seal", at("other"), NULL, ICOTABLE_HANDLE_OTHER_TABLE, "against an atom with 2 levels");
    copy(at("pair.meta"), at("other.meta"), -1);
    icotable_reader_close(open_reader(at("other"), NULL));
    alter(at("other"), 220);
    refused_reader("another table", at("other"), NULL, ICOTABLE_SEAL_OTHER_TABLE, "");
    alter(at("other.meta"), 40);
    refused_reader("damaged", at("other"), NULL, ICOTABLE_SEAL_DAMAGED, "");
    is("without a fault", 1, icotable_reader_open(at("nothing"), NULL, NULL) == NULL);
}

static void environment(void) {
    icotable_fault fault;
    icotable_build_settings s = settings_of(0);
    fesetround(FE_UPWARD);
    icotable_reader *t = icotable_reader_open(at("pair"), NULL, &fault);
    faults("rounding", t, ICOTABLE_HANDLE_ENVIRONMENT, "fesetround", &fault);
    icotable_build *b = icotable_build_begin(&s, &fault);
    fesetround(FE_TONEAREST);
    is("rounding", 1, b == NULL);
    says("rounding", "floating-point environment", fault.said);
}

/* ---- meshes of one's own */

/* The library's with the axes turned round: other vertices under the same numbers, which keep the mesh rule. */
static void turned(icotable_meshes *m, uint64_t top) {
    is("meshes", 0, icotable_make_meshes(m, top));
    for (size_t v = 0; v < m->vertices_count; v += 3) {
        double x = m->vertices[v];
        m->vertices[v] = m->vertices[v + 1];
        m->vertices[v + 1] = m->vertices[v + 2];
        m->vertices[v + 2] = x;
    }
}

static void own_meshes(void) {
    icotable_meshes m;
    icotable_fault fault;
    turned(&m, 1);
    is("save", 0, icotable_meshes_save(&m, at("turned.mesh"), NULL));
    m.top = 0;
    icotable_build_settings s = settings_of(0);
    s.meshes = at("turned.mesh");
    finish(open_build(icotable_build_begin, &s), 0, at("turned"));
    s.top = 2;
    faults("level", icotable_build_begin(&s, &fault), ICOTABLE_HANDLE_LEVEL_MISSING, "turned.mesh has levels 0 to 1, of 0 to 2", &fault);
    icotable_reader *t = open_reader(at("turned"), NULL);
    is("the meshes", 0, (uint64_t)icotable_meshes_own(icotable_reader_meshes(t), 2));
    icotable_reader_close(t);
    icotable_reader_close(open_reader(at("turned"), at("turned.mesh")));
    m.top = 1;
    icotable_free_meshes(&m);
    is("make", 0, icotable_make_meshes(&m, 1));
    is("save", 0, icotable_meshes_save(&m, at("own.mesh"), NULL));
    refused_reader("other meshes", at("turned"), at("own.mesh"), ICOTABLE_HANDLE_OTHER_MESHES, "own.mesh");
    refused_reader("other meshes", at("pair"), at("turned.mesh"), ICOTABLE_HANDLE_OTHER_MESHES, "turned.mesh");
    icotable_reader_close(open_reader(at("pair"), at("own.mesh")));
    icotable_free_meshes(&m);
    s = settings_of(0);
    s.meshes = at("own.mesh");
    finish(open_build(icotable_build_begin, &s), 0, at("same"));
    is("its own need no mesh file", 1, access(at("same.mesh"), F_OK) != 0);
    same_file("its own", at("same"), at("pair"));
}

static void lost_parts(void) {
    icotable_meshes m;
    is("make", 0, icotable_make_meshes(&m, 0));
    is("save", 0, icotable_meshes_save(&m, at("small.mesh"), NULL));
    icotable_free_meshes(&m);
    refused_reader("a level is missing", at("turned"), at("small.mesh"), ICOTABLE_HANDLE_LEVEL_MISSING, "small.mesh has levels 0 to 0, of 0 to 1");
    copy(at("turned"), at("lost"), -1);
    copy(at("turned.meta"), at("lost.meta"), -1);
    refused_reader("no mesh file", at("lost"), NULL, ICOTABLE_MESH_FILE_ABSENT, "lost.mesh");
    copy(at("turned.mesh"), at("lost.mesh"), -1);
    icotable_reader_close(open_reader(at("lost"), NULL));
    unlink(at("lost.meta"));
    refused_reader("no seal", at("lost"), NULL, ICOTABLE_HANDLE_NO_SEAL, "lost.mesh");
    icotable_reader_close(open_reader(at("lost"), at("lost.mesh")));
    copy(at("pair.meta"), at("lost.meta"), -1);
    refused_reader("another's seal", at("lost"), NULL, ICOTABLE_SEAL_OTHER_TABLE, "");
}

/* ---- meshes and tables in memory */

/* Seals of the same table, over the same meshes or over others. */
static void same_seal(const char *one, const char *other, bool meshes) {
    icotable_seal s, t;
    is("a seal", 0, icotable_seal_read(&s, one, NULL) | icotable_seal_read(&t, other, NULL));
    is("its sum", 0, (uint64_t)(strcmp(s.sha256, t.sha256) | memcmp(&s.grid, &t.grid, sizeof s.grid)));
    is("its meshes", meshes, s.meshes_hash == t.meshes_hash && s.own_meshes == t.own_meshes);
}

static void lent_meshes(void) {
    icotable_meshes m, own;
    icotable_fault fault;
    turned(&m, 1);
    is("make", 0, icotable_make_meshes(&own, 1));
    icotable_build_settings s = settings_of(0);
    s.lent = &m;
    finish(open_build(icotable_build_begin, &s), 0, at("lent"));
    same_file("over meshes that are lent", at("lent"), at("pair"));
    same_seal(at("lent"), at("pair"), false);
    s.top = 2;
    faults("level", icotable_build_begin(&s, &fault), ICOTABLE_HANDLE_LEVEL_MISSING, "what is lent has levels 0 to 1, of 0 to 2", &fault);
    icotable_reader *t = icotable_reader_open_over(at("lent"), &m, &fault);
    is("the meshes", 1, t != NULL && icotable_reader_meshes(t)->vertices == m.vertices);
    icotable_reader_close(t);
    t = icotable_reader_open_over(at("lent"), &own, &fault);
    faults("other meshes", t, ICOTABLE_HANDLE_OTHER_MESHES, "what is lent", &fault);
    unlink(at("lent.meta"));
    t = icotable_reader_open_over(at("lent"), &m, &fault);
    is("without a seal", 1, t != NULL);
    icotable_reader_close(t);
    t = icotable_reader_open_over(at("pair"), NULL, &fault);
    is("the library's own", 1, t != NULL && icotable_meshes_own(icotable_reader_meshes(t), 2));
    icotable_reader_close(t);
    icotable_free_meshes(&m);
    icotable_free_meshes(&own);
}

static void in_memory(void) {
    icotable_fault fault;
    size_t length;
    icotable_reader *t = open_reader(at("pair"), NULL);
    const uint8_t *file = icotable_reader_file(t, &length);
    icotable_meshes small = *icotable_reader_meshes(t);
    icotable_reader *u = icotable_reader_over(file, length, &small, &fault);
    is("the bytes", 1, u != NULL && icotable_reader_file(u, NULL) == file);
    icotable_value x = icotable_reader_energy(t, 2.1, 0.3, 1, 2, 3, 3, 2, 1), y = icotable_reader_energy(u, 2.1, 0.3, 1, 2, 3, 3, 2, 1);
    is("an energy", 1, x.number == 0 && y.number == 0 && x.energy == y.energy);
    icotable_reader_close(u);
    small.top = 0;
    faults("a level", icotable_reader_over(file, length, &small, &fault), ICOTABLE_HANDLE_LEVEL_MISSING, "what is lent", &fault);
    faults("cut", icotable_reader_over(file, length - 1, NULL, &fault), ICOTABLE_SECTIONS, "bytes in memory", &fault);
    icotable_build_settings s = settings_of(0);
    is("save", 0, icotable_table_save(&s, file, length, at("saved"), &fault));
    same_file("saved", at("saved"), at("pair"));
    same_seal(at("saved"), at("pair"), true);
    is("cut", ICOTABLE_SECTIONS, icotable_table_save(&s, file, length - 1, at("none"), &fault));
    s.top = 2;
    is("another top level", ICOTABLE_HANDLE_OTHER_TABLE, icotable_table_save(&s, file, length, at("none"), &fault));
    s.top = 16;
    is("no such level", ICOTABLE_LEVEL, icotable_table_save(&s, file, length, at("none"), &fault));
    s.top = 1;
    is("no name", ICOTABLE_HANDLE_NOT_WRITTEN, icotable_table_save(&s, file, length, NULL, &fault));
    is("a device", ICOTABLE_HANDLE_NOT_WRITTEN, icotable_table_save(&s, file, length, "/dev/null", &fault));
    s.atom = 1;
    is("the other kind", ICOTABLE_SECTIONS, icotable_table_save(&s, file, length, at("none"), &fault));
    is("nothing is left", 1, access(at("none"), F_OK) != 0 && access(at("none.meta"), F_OK) != 0);
    icotable_reader_close(t);
}

void test_files(void) {
    refused_readers();
    environment();
    own_meshes();
    lost_parts();
    lent_meshes();
    in_memory();
}
