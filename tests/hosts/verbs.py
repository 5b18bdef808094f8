#!/usr/bin/env python3
"""What tests/hosts/verbs asks of icotable's answers: verbs.py tables FOLDER and verbs.py loose FILE make tables; verbs.py answers TOOL FOLDER reads JSON, CSV
and SVG of them and of the demonstration's, beside the files' own bytes; verbs.py colours TOOL FOLDER puts the tool on a terminal."""
import csv, io, json, math, os, pty, re, struct, subprocess, sys

SCALAR, REPULSIVE, NEAREST, INTERPOLATED = range(4)
NAMES = ("Scalar", "Repulsive", "Mesh nearest", "Mesh interpolated")


def vertices(level):
    return 10 * (level + 1) ** 2 + 2


def made(name, grid, bins, levels, rows):
    """rows: (kind, level, scalar or energies)"""
    head, packed = [], []
    for kind, level, what in rows:
        mesh = kind >= NEAREST
        head.append(struct.pack("<BBIf" if kind == SCALAR else "<BBII", kind, level, len(packed) if mesh else 0xFFFFFFFF, what if kind == SCALAR else 0))
        packed += what if mesh else []
    with open(name, "wb") as out:
        out.write(struct.pack(f"<I{len(grid)}d", len(grid), *grid) + struct.pack(f"<I{len(bins)}I", len(bins), *bins))
        out.write(struct.pack(f"<I{levels}I", levels, *map(vertices, range(levels))) + struct.pack("<I", len(rows)) + b"".join(head))
        out.write(struct.pack("<I", len(packed)) + struct.pack(f"<{len(packed)}f", *packed))


def tables(folder):
    """Of 4 by 3 slabs, two that differ by every cause, with infinite energies, a Scalar that is a NaN and one that is infinite."""
    def mesh(kind, level, first=0.0):
        return kind, level, [first] + [0.1 * i for i in range(1, vertices(level) ** 2)]

    a = [(REPULSIVE, 0, 0), (SCALAR, 0, math.nan), (SCALAR, 0, -math.inf), mesh(INTERPOLATED, 1), mesh(INTERPOLATED, 0), mesh(NEAREST, 0), (SCALAR, 0, 0.1)]
    a += [(SCALAR, 0, 1e-45), (SCALAR, 0, 3e38), mesh(INTERPOLATED, 0, math.inf), mesh(NEAREST, 0), mesh(NEAREST, 0)]
    b = list(a)
    b[1] = SCALAR, 0, 2.5
    b[3] = mesh(INTERPOLATED, 0)
    b[4] = mesh(NEAREST, 0)
    b[9] = mesh(INTERPOLATED, 0, 7.0)
    b[10] = NEAREST, 0, [x + (1.0 if i in (3, 4, 5) else 0.0) for i, x in enumerate(a[10][2])]
    made(f"{folder}/verbs_a", (1.0, 0.1, math.tau / 3), (4, 3), 2, a)
    made(f"{folder}/verbs_b", (1.0, 0.25, math.tau / 3), (4, 3), 2, b)
    made(f"{folder}/verbs_all", (0.0, 0.01, math.tau / 300), (2000, 300), 1, [(SCALAR, 0, 1.0)] * 600000)
    made(f"{folder}/verbs_sixteen", (0.0, 0.5), (32,), 16, [(k, m, [float(m)] * vertices(m)) for m in range(16) for k in (INTERPOLATED, NEAREST)])


def loose(name):
    """One Mesh row of level 1 behind energies that no row has: longer than a file may be in the test."""
    n = vertices(1) ** 2
    with open(name, "wb") as out:
        out.write(struct.pack("<I3d3I", 3, 0.0, 1.0, 6.0, 2, 4, 1) + struct.pack("<4I", 2, 12, 42, 4))
        out.write(b"".join(struct.pack("<BBII", 3, 1, 2 + i * n, 0) for i in range(4)) + struct.pack("<I", 4 * n + 2) + bytes(4 * (4 * n + 2)))


class Table:
    """The file by itself."""

    def __init__(self, name):
        with open(name, "rb") as file:
            self.bytes = file.read()
        self.at = 0
        self.grid = self.section("d", 8)
        self.bins = self.section("I", 4)
        self.levels = self.section("I", 4)
        rows = self.count()
        self.rows = [struct.unpack_from("<BBI4s", self.bytes, self.at + 10 * i) for i in range(rows)]
        self.at += 10 * rows
        count = self.count()
        self.energies = [self.bytes[self.at + 4 * i:self.at + 4 * i + 4] for i in range(count)]
        self.n_omega = self.bins[1] if len(self.bins) == 2 else 1

    def count(self):
        self.at += 4
        return struct.unpack_from("<I", self.bytes, self.at - 4)[0]

    def section(self, letter, width):
        n = self.count()
        self.at += width * n
        return struct.unpack_from(f"<{n}{letter}", self.bytes, self.at - width * n)

    def held(self, row):
        kind, level = row[:2]
        return 0 if kind < NEAREST else vertices(level) if len(self.bins) == 1 else vertices(level) ** 2


class Answers:
    def __init__(self, tool):
        self.tool, self.read, self.wrong = tool, 0, 0

    def ask(self, status, *words, **more):
        done = subprocess.run([self.tool, *words], stdout=subprocess.PIPE, stderr=subprocess.PIPE, **more)
        self.check(done.returncode == status, f"status {done.returncode}, not {status}: {words}: {done.stderr}")
        self.read += 1
        return done.stdout.decode()

    def json(self, status, *words, **more):
        def none(word):
            self.check(False, f"{words}: {word} is no JSON")

        text = self.ask(status, *words, **more)
        self.check(text.endswith("}\n") and text.count("\n") == 1, f"{words}: one object on one line")
        return json.loads(text, parse_constant=none)

    def check(self, right, what):
        if not right:
            self.wrong += 1
            print("wrong:", what)


def bits(x):
    """A float's bytes, any NaN as the one that a table holds."""
    return b"\0\0\xc0\x7f" if math.isnan(float(x)) else struct.pack("<f", float(x))


def letter(kind, level):
    return ".#"[kind] if kind < NEAREST else chr(ord("a" if kind == NEAREST else "A") + level)


def exported(a, name, t):
    lines = list(csv.DictReader(io.StringIO(a.ask(0, "export", "--csv", name))))
    a.check(len(lines) == len(t.rows), f"{name}: a line a slab")
    for slab, (line, row) in enumerate(zip(lines, t.rows)):
        kind, level, offset, scalar = row
        ri, oi = slab // t.n_omega, slab % t.n_omega
        place = [str(ri), float(line["r"])] + ([line["oi"], float(line["omega"])] if len(t.bins) == 2 else [])
        a.check(place == [line["ri"], t.grid[0] + ri * t.grid[1]] + ([str(oi), oi * t.grid[2]] if len(t.bins) == 2 else []), f"{name}: {line}")
        a.check((line["kind"], line["letter"]) == (NAMES[kind], letter(kind, level)), f"{name}: {line}")
        a.check((line["scalar"] != "") == (kind == SCALAR) and (kind != SCALAR or bits(line["scalar"]) == scalar), f"{name}: {line}")
        mesh = [str(level), str(offset), str(t.held(row))] if kind >= NEAREST else ["", "", ""]
        a.check([line["level"], line["offset"], line["energies"]] == mesh, f"{name}: {line}")
        if kind >= NEAREST:
            held = [struct.unpack("<f", e)[0] for e in t.energies[offset:offset + t.held(row)]]
            a.check((bits(line["lowest"]), bits(line["highest"])) == (bits(min(held)), bits(max(held))), f"{name}: {line}")
    energies(a, name, t)


def energies(a, name, t):
    """Every energy to the bit, in the order of the file, and those of one slice."""
    at = 0
    lines = list(csv.DictReader(io.StringIO(a.ask(0, "export", "--csv", "--energies", name))))
    for slab, row in enumerate(t.rows):
        n = vertices(row[1])
        for i in range(t.held(row)):
            line = lines[at]
            vertex = [str(i)] if len(t.bins) == 1 else [str(i // n), str(i % n)]
            found = [line["a"]] + ([line["b"]] if len(t.bins) == 2 else [])
            right = bits(line["energy"]) == t.energies[at] and line["ri"] == str(slab // t.n_omega) and found == vertex and line["level"] == str(row[1])
            a.check(right, f"{name}: energy {at}: {line}")
            at += 1
    a.check(at == len(lines) == len(t.energies), f"{name}: a line an energy")
    some = list(csv.DictReader(io.StringIO(a.ask(0, "export", "--csv", "--energies", "--slice", "3", name))))
    a.check(some == [line for line in lines if line["ri"] == "3"], f"{name}: the energies of a slice")


def inspected(a, name, t):
    j = a.json(0, "inspect", "--json", name)
    a.check(j["accepted"] and j["file"] == name and j["bytes"] == len(t.bytes), f"{name}: {j}")
    grid = [j["rmin"], j["dr"]] + ([j["omega_step"]] if len(t.bins) == 2 else [])
    a.check(tuple(grid) == t.grid and j["n_r"] == t.bins[0] and j["levels"] == len(t.levels), f"{name}: {j}")
    for key, kind in ("nearest", NEAREST), ("interpolated", INTERPOLATED):
        a.check(j[key] == [sum(row[:2] == (kind, m) for row in t.rows) for m in range(len(t.levels))], f"{name}: {key}")
    kinds = [sum(row[0] == kind for row in t.rows) for kind in (SCALAR, REPULSIVE)]
    a.check([j["scalar"], j["repulsive"]] == kinds and j["energies"] == len(t.energies), f"{name}: {j}")
    drawn = a.ask(0, "inspect", "--color=never", name).partition("slabs, a letter")[2].split("\n", 1)[1]
    a.check("".join(line[12:] for line in drawn.splitlines()) == "".join(letter(*row[:2]) for row in t.rows), f"{name}: the letters of inspect")
    r = a.json(0, "inspect", "--resolution", "--json", name)["resolution"]
    a.check([level["vertices"] for level in r] == list(t.levels), f"{name}: resolution")


def refused(a, folder):
    j = a.json(1, "inspect", "--json", f"{folder}/nan")
    a.check((j["accepted"], j["number"], j["byte"]) == (False, 17, 3908) and "NaN" in j["why"], f"{j}")
    j = a.json(2, "verify", "--json", f"{folder}/table.icotable", f"{folder}/kind", f"{folder}/nowhere")["files"]
    a.check([f.get("number") for f in j] == [0, 15, None] and j[2]["trouble"] == "No such file or directory", f"{j}")
    strange = f'{folder}/verbs_"strange"\t\\'.encode() + b"\xff\xc3\xa9"
    with open(strange, "wb") as file:
        file.write(b"no table")
    j = a.json(1, "verify", "--json", strange)["files"][0]
    a.check(j["file"] == f'{folder}/verbs_"strange"\t\\\ufffd\u00e9', f"{j}")
    os.unlink(strange)
    j = a.json(1, "size", "--json", "1", "25", "0.5", "16")
    a.check((j["accepted"], j["number"]) == (False, 2), f"{j}")
    a.check(a.json(0, "size", "--json", "-1", "25", "0.5", "3")["distances"] == 52, "a number below 0 is a name")
    a.ask(2, "diff", "--json", f"{folder}/table.icotable", f"{folder}/nan")


def compared(a, folder):
    names = f"{folder}/verbs_a", f"{folder}/verbs_b"
    j = a.json(1, "diff", "--json", *names)
    a.check(j["files"] == list(names) and not j["equal"] and j["causes"] == ["settings", "kind", "level", "scalar", "energies"], f"{j}")
    a.check(j["settings"] == {"dr": [0.1, 0.25]} and j["slabs"]["first"] == {"ri": 0, "oi": 1}, f"{j}")
    a.check([j["slabs"][k] for k in ("compared", "differing", "kind", "level", "scalar", "energies")] == [12, 5, 1, 1, 1, 2], f"{j}")
    a.check(j["energies"] == {"compared": 720, "differing": 4, "largest_difference": "Infinity", "slab": {"ri": 3, "oi": 0}}, f"{j}")
    a.check([row["cause"] for row in j["listed"]] == ["scalar", "level", "kind", "energies", "energies"] and j["not_listed"] == 0, f"{j}")
    a.check(j["listed"][0]["rows"][0]["scalar"] == "NaN" and [row["letter"] for row in j["listed"][1]["rows"]] == ["B", "A"], f"{j}")
    a.check(a.json(1, "diff", "--json", *reversed(names))["slabs"] == j["slabs"], "the slabs by cause, the other way round")
    j = a.json(1, "diff", "--json", "--limit=1", "--slice", "3", *names)
    a.check([row["slab"] for row in j["listed"]] == [{"ri": 3, "oi": 0}] and j["not_listed"] == 1 and j["slabs"]["differing"] == 5, f"{j}")
    a.check(a.json(0, "diff", "--json", names[0], names[0])["equal"], "a table is itself")
    j = a.json(1, "diff", "--json", f"{folder}/table.icotable", f"{folder}/ion.icotable")
    a.check(j["kinds"] == ["pair", "atom"] and "causes" not in j, f"{j}")
    j = a.json(1, "diff", "--json", f"{folder}/tail", f"{folder}/tail_shorter")
    a.check(j["causes"] == ["tail"] and j["tail"] == {"terms": [2, 1], "terms_differing": 1, "prefactor_differs": False}, f"{j}")
    j = a.json(0, "inspect", "--json", f"{folder}/tail")
    a.check(j["prefactor"] == 4 and j["terms"][1] == {"coefficient": 2, "kappa": 0.25, "power": 1}, f"{j}")


def journals(a, folder):
    j = a.json(0, "status", "--json", f"{folder}/guide.journal")
    a.check(j["slabs"] == j["slabs_set"] == 384 and j["next"] == {"step": "write"} and j["guard"] is None, f"{j}")
    j = a.json(0, "status", "--json", f"{folder}/verbs_half.journal")
    a.check((j["slabs_set"], j["slices_settled"], j["level"]) == (4, 1, 1), f"{j}")
    a.check(j["next"] == {"step": "sample", "ri": 1, "distance": 1, "level": 1, "missing": [1, 2]}, f"{j}")
    j = a.json(1, "status", "--json", f"{folder}/table.icotable")
    a.check((j["accepted"], j["number"]) == (False, 204), f"{j}")
    a.check(a.json(2, "status", "--json", f"{folder}/nowhere")["number"] == 202, "a journal that is not there")


def coloured(a, *names):
    """The colour of each level in the cells and the legend of a picture; side by side they have to be the same."""
    text = a.ask(0, "map", *names)
    found = {}
    for colour, level in re.findall(r'fill="(#\w{6})"><title>[^<]*level (\d+) \([A-Pa-p]\)', text):
        found.setdefault(int(level), set()).add(colour)
    for colour, level in re.findall(r'fill="(#\w{6})"/>\n<text[^>]*>(\d+) [A-P]</text>', text):
        found.setdefault(int(level), set()).add(colour)
    for words in "distance r (unit of the table)", "(unit of the table&apos;s energies; cut off above)".replace("&apos;", "'"):
        a.check(text.count(words) == len(names), f"{names}: {words}")
    return found


def mapped(a, folder):
    sixteen, ion, pair = (f"{folder}/{name}" for name in ("verbs_sixteen", "ion.icotable", "table.icotable"))
    found = coloured(a, sixteen, ion)
    a.check(sorted(found) == list(range(16)) and all(len(colours) == 1 for colours in found.values()), f"{found}")
    a.check(len(set.union(*found.values())) == 16, f"{found}")
    found = coloured(a, ion, pair)
    a.check(sorted(found) == list(range(6)) and all(len(colours) == 1 for colours in found.values()), f"{found}")
    a.check(coloured(a, pair)[3] != found[3], "alone, a table of 4 levels has the colours of 4")
    a.check("dihedral omega (degrees)" in a.ask(0, "map", pair), "the axis of the dihedral angle")


def answers(tool, folder):
    a = Answers(tool)
    for name in "ion.icotable", "verbs_a", "verbs_b", "verbs_sixteen":
        t = Table(f"{folder}/{name}")
        exported(a, f"{folder}/{name}", t)
        inspected(a, f"{folder}/{name}", t)
    inspected(a, f"{folder}/table.icotable", Table(f"{folder}/table.icotable"))
    refused(a, folder)
    compared(a, folder)
    journals(a, folder)
    mapped(a, folder)
    print(f"{a.read} answers of the tool read as JSON, CSV or SVG, {a.wrong} wrong")


def on_terminal(words, environment):
    """What a program writes to a terminal."""
    process, terminal = pty.fork()
    if process == 0:
        os.execve(words[0], words, environment)
    written = b""
    while True:
        try:
            more = os.read(terminal, 65536)
        except OSError:
            more = b""
        if more == b"":
            break
        written += more
    os.waitpid(process, 0)
    os.close(terminal)
    return written


def colours(tool, folder):
    wrong = asked = 0
    for verb in (["verify", f"{folder}/ion.icotable"], ["inspect", f"{folder}/ion.icotable"], ["diff", f"{folder}/verbs_a", f"{folder}/verbs_b"]):
        for terminal, environment, options, wanted in (
                (True, {"TERM": "xterm"}, [], True), (True, {"TERM": "xterm", "NO_COLOR": "1"}, [], False), (True, {"TERM": "xterm", "NO_COLOR": ""}, [], True),
                (True, {"TERM": "dumb"}, [], False), (True, {}, [], False), (True, {"TERM": "xterm"}, ["--color=never"], False),
                (True, {"TERM": "xterm"}, ["--color", "auto"], True), (True, {"NO_COLOR": "1"}, ["--color=always"], True),
                (False, {"TERM": "xterm"}, [], False), (False, {"TERM": "xterm"}, ["--color=always"], True)):
            words = [tool, *verb, *options]
            text = on_terminal(words, environment) if terminal else subprocess.run(words, stdout=subprocess.PIPE, env=environment).stdout
            asked += 1
            if (b"\033[" in text) != wanted or (wanted and not text.rstrip().rsplit(b"\033[", 1)[1].startswith(b"0m")):
                wrong += 1
                print("wrong:", words, environment, text[:200])
    print(f"{asked} times with and without colour, {wrong} wrong")


if __name__ == "__main__":
    if sys.argv[1] == "tables":
        tables(sys.argv[2])
    elif sys.argv[1] == "loose":
        loose(sys.argv[2])
    elif sys.argv[1] == "answers":
        answers(*sys.argv[2:])
    else:
        colours(*sys.argv[2:])
