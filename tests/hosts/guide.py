#!/usr/bin/env python3
"""The snippets of docs/GUIDE.md as one program, in the page's order but for one: guide.py GUIDE > PROGRAM.c. What the
page leaves to the host (lists, bins, a query, `check`) is declared here. The program leaves guide.icotable and two
journals in the folder that it is started in."""
import sys

HEAD = """#include "environment.h"
#include "icotable_handles.h"

#include <math.h>
#include <stdio.h>
#include <stdlib.h>

enum { top = 1, slabs = 32 * 12, n = 42, store_count = slabs * n * n, output_count = 60 + 10 * slabs + 4 * store_count };
static double store[store_count], energies[n * n];
static uint64_t words[slabs];
static uint8_t kinds[slabs], levels[slabs], output[output_count];
static uint32_t values[slabs];
enum { distances = 48, poses_count = 600 };
static double poses[8 * poses_count], answers[3 * poses_count];
static uint64_t numbers[poses_count];

static void check(const char *what, uint64_t number) {
    if (number != 0) {
        fprintf(stderr, "%s: %s\\n", what, icotable_words(number));
        exit(1);
    }
}

/* the same in every direction */
static void sample(double *list, uint64_t level, double distance) {
    for (uint64_t v = 0; v < icotable_vertices(level); v++)
        list[v] = distance;
}

static void sample_slab(double *list, uint64_t level, uint64_t ri, uint64_t oi) {
    for (uint64_t v = 0; v < icotable_vertices(level) * icotable_vertices(level); v++)
        list[v] = (double)(v % 5 + ri % 2 + oi) / 10;
}

int main(void) {
    uint64_t ri = 3, oi = 2;
    double r = 3.25, omega = 1.05, ax = 1, ay = 0, az = 0, bx = 0, by = 1, bz = 0, beta = 0.40339;
    for (int i = 0; i < n * n; i++)
        energies[i] = 7;
"""
# the three lists that the page moves to words
LISTS = """    check("rows", icotable_words_to_rows(slabs, words, slabs, kinds, slabs, levels, slabs, values, slabs));
"""
# by handles: a build and a reader of their own
HANDLES = """    {
        double energies[n * n];
"""
HANDLED = """        printf("handles %llu\\n", (unsigned long long)number);
    }
    {
        for (int i = 0; i < poses_count; i++) {
            double pose[8] = {r, omega, ax, ay, az, bx, by, bz};
            for (int k = 0; k < 8; k++)
                poses[8 * i + k] = pose[k];
        }
"""
READ = """        printf("handle's energy %g, the last of many %g\\n", energy, answers[3 * poses_count - 3]);
    }
"""
# a build of its own, which changes nothing of the page's
JOURNAL = """    {
        uint64_t ri, oi;
        double energies[n * n];
"""
JOURNALED = """        printf("journal %llu, %llu calls\\n", (unsigned long long)number, (unsigned long long)j.records);
    }
"""
TABLE = "guide.icotable"
WORDS = """    printf("row %c\\n", letter);
"""
BETWEEN = """    printf("tail %g of %llu terms\\n", tail.energy, (unsigned long long)far.terms);
    icotable_free_meshes(&m);
    {
        uint8_t *file = output;
        size_t length = w.length;
"""
ATOM = """        printf("energy %g, weighted %g, between %g and %g\\n", v.energy, x.energy, s.smallest, s.largest);
        icotable_free_meshes(&m);
    }
    double x = 1, y = 2, z = 3;
    {
"""
TAIL = """        printf("against an atom %g, weighted %g\\n", v.energy, u.energy);
        icotable_free_meshes(&m);
    }
    return 0;
}
"""


def snippets(page, name, indent):
    """The indented lines of a section."""
    section = page.split(f"\n## {name}\n")[1].split("\n## ")[0]
    lines = [line for line in section.split("\n") if line.startswith(" " * indent)]
    return "".join(line[indent - 4 :] + "\n" for line in lines if line.strip() != "..")


def main():
    with open(sys.argv[1], encoding="utf-8") as text:
        page = text.read()
    parts = [
        HEAD,
        snippets(page, "What the library needs of the process", 4),
        snippets(page, "Reserving a job", 4),
        "    {\n",
        snippets(page, "Finding a direction without a locator", 4),
        "    }\n",
        HANDLES,
        snippets(page, "Building a table", 4)
        .replace("build.journal", "handles.journal")
        .replace("table.icotable", TABLE),
        HANDLED,
        snippets(page, "Reading in a simulation", 4).replace("table.icotable", TABLE),
        READ,
        snippets(page, "Building by the library's own calls", 7),
        JOURNAL,
        snippets(page, "Restarting a job", 4).replace("build.journal", "guide.journal"),
        JOURNALED,
        LISTS,
        snippets(page, "Rows in words", 4),
        WORDS,
        snippets(page, "Beyond the table's distances", 4),
        BETWEEN,
        snippets(page, "Reading by the library's own calls", 4),
        snippets(page, "Readings weighted by temperature", 4),
        snippets(page, "Distances known within a span", 4),
        ATOM,
        snippets(page, "One molecule against an atom", 7),
        TAIL,
    ]
    sys.stdout.write("".join(parts))


main()
