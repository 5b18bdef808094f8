#!/usr/bin/env python3
"""Tables for the fixtures of tests/hosts: made.py tailed|views|loose|large FOLDER."""
import math
import struct
import sys

NO_OFFSET = 0xFFFFFFFF


def file(name, *parts):
    with open(f"{sys.argv[2]}/{name}", "wb") as out:
        out.write(b"".join(parts))


def grid(rows):
    """Document 01's: rmin 0, dr 1, omega_step 6, one dihedral bin."""
    return struct.pack("<I3d3I", 3, 0.0, 1.0, 6.0, 2, rows, 1)


def tailed():
    plain = grid(1) + struct.pack("<3IBBIII", 1, 12, 1, 0, 0, NO_OFFSET, 0, 0)
    file("no_tail", plain)

    def made(name, terms, prefactor, count=None, more=b""):
        tail = struct.pack("<I", len(terms) if count is None else count)
        tail += b"".join(struct.pack("<ddI", *term) for term in terms)
        file(name, plain, tail, b"".join(struct.pack("<d", x) for x in prefactor), more)

    first, second, inf = (-1.5, 0.0, 6), (2.0, 0.25, 1), float("inf")
    made("tail", [first, second], [4.0])
    made("tail_term", [first, (2.0, 0.5, 1)], [4.0])
    made("tail_shorter", [first], [4.0])
    made("tail_prefactor", [first, second], [-4.0])
    made("tail_none", [], [4.0])
    made("tail_bare", [first, second], [])
    made("tail_count", [first, second], [4.0], 3)
    made("tail_longer", [first, second], [4.0], more=b"abc")
    made("tail_coefficient", [first, (inf, 0.25, 1)], [4.0])
    made("tail_kappa", [(-1.5, -inf, 6), second], [4.0])
    made("tail_power", [first, (2.0, 0.25, 2147483648)], [4.0])
    made("tail_factor", [first, second], [inf])


def views():
    def made(name, levels, rows, first=12, kind=0):
        counts = [first] + [10 * m * m + 2 for m in range(2, levels + 1)]
        head = grid(rows) + struct.pack(f"<{1 + levels}I", levels, *counts)
        row = struct.pack("<BBII", kind, 0, NO_OFFSET, 0)
        file(name, head, struct.pack("<I", rows), rows * row, struct.pack("<I", 0))

    made("view_most", 4, 4096)
    made("view_levels", 5, 1)
    made("view_rows", 1, 4097)
    made("view_grid", 5, 1, first=13)
    made("view_kind", 4, 1, kind=4)
    made("view_both", 5, 1, kind=4)


def loose():
    def made(name, rows, count, offsets):
        head = grid(rows) + struct.pack("<3I", 1, 12, rows)
        energies = struct.pack(f"<I{count}f", count, *range(count))
        file(name, head, b"".join(struct.pack("<BBII", 3, 0, o, 0) for o in offsets), energies)

    made("loose", 1, 146, [2])
    made("packed", 1, 144, [0])
    made("shared", 2, 144, [0, 0])
    made("past", 1, 146, [3])


def large():
    def made(name, floats, bins, altered):
        slabs = math.prod(bins)
        rows = bytearray(struct.pack("<BBII", 0, 0, NO_OFFSET, 0) * slabs)
        if altered is not None:
            rows[10 * altered + 9] = 0x3F
        head = struct.pack(f"<I{len(floats)}d", len(floats), *floats)
        head += struct.pack(f"<{len(bins) + 1}I", len(bins), *bins)
        file(name, head, struct.pack("<3I", 1, 12, slabs), bytes(rows), bytes(4))

    for name, slab in ("large", None), ("larger", 1000):
        made(name, (0.0, 0.01, math.tau / 300), (2000, 300), slab and slab * 300 + 77)
        made(f"{name}_ion", (0.0, 0.01), (2000,), slab)


{"tailed": tailed, "views": views, "loose": loose, "large": large}[sys.argv[1]]()
