#!/usr/bin/env python3
"""docs/FORMAT.md followed in another language, from the page alone: the meshes and their checksums, table files of both kinds, one of
them with a long-range tail, readings, and the tail.

page.py PAGE ASK FOLDER: compares the checksums with the page's table, writes two tables to FOLDER, has ASK (tests/hosts/ask.c) read
them, and compares each energy with the one that the page's rule gives. Ends in the counts; the status is 1 where one differs.
"""
import math
import random
import struct
import subprocess
import sys
from fractions import Fraction

PHI = struct.unpack(">d", bytes.fromhex("3FF9E3779B97F4A8"))[0]
TAU = struct.unpack(">d", bytes.fromhex("401921FB54442D18"))[0]
GRID = [2, 4, 5, 7, 8, 10, 11, 13, 14, 16, 18, 19, 21, 22, 24, 25]


def dot(p, q):
    return (p[0] * q[0] + p[1] * q[1]) + p[2] * q[2]


def less(p, q):
    return [p[k] - q[k] for k in range(3)]


def fused(x, y, z):
    exact = Fraction(x) * Fraction(y) + Fraction(z)
    return float(exact) if exact else x * y + z


# ---- meshes


def icosahedron():
    corners = []
    for c in range(12):
        k, corner = c // 4, [0.0, 0.0, 0.0]
        corner[(k + 1) % 3] = -1.0 if c % 2 else 1.0
        corner[(k + 2) % 3] = -PHI if c % 4 >= 2 else PHI
        corners.append(corner)

    def near(a, b):
        return abs(math.dist(corners[a], corners[b]) - 2) < 0.1

    edges = [(a, b) for a in range(12) for b in range(a + 1, 12) if near(a, b)]
    faces = [(a, b, c) for a, b in edges for c in range(b + 1, 12) if (a, c) in edges and (b, c) in edges]
    return corners, {edge: e for e, edge in enumerate(edges)}, faces


CORNERS, EDGES, FACES = icosahedron()


def vertex_number(p, f, i, j):
    shares = list(zip(FACES[f], (i, j, p - i - j)))
    held = [(corner, share) for corner, share in shares if share]
    if len(held) == 1:
        return held[0][0]
    if len(held) == 2:
        return 12 + EDGES[(held[0][0], held[1][0])] * (p - 1) + held[0][1] - 1
    before = sum(p - 1 - x for x in range(1, i)) + j - 1
    return 12 + 30 * (p - 1) + f * ((p - 1) * (p - 2) // 2) + before


def place(p, f, i, j):
    a, b, c = (CORNERS[k] for k in FACES[f])
    v = [(a[k] * i + b[k] * j) + c[k] * (p - i - j) for k in range(3)]
    length = math.sqrt(dot(v, v))
    return [x / length for x in v]


class Mesh:
    def __init__(self, m):
        p = m + 1
        self.g, self.n = GRID[m], 10 * p * p + 2
        self.vertices, self.neighbours = [None] * self.n, [[] for _ in range(self.n)]
        for f in range(20):
            for i in range(p + 1):
                for j in range(p + 1 - i):
                    self.vertices[vertex_number(p, f, i, j)] = place(p, f, i, j)
        for f in range(20):
            for i in range(p):
                for j in range(p - i):
                    t = [vertex_number(p, f, *at) for at in ((i, j), (i + 1, j), (i, j + 1))]
                    for first, second in (t[0], t[1]), (t[1], t[2]), (t[2], t[0]):
                        self.tie(first, second)
                        self.tie(second, first)
        self.cells = None

    def tie(self, first, second):
        if second not in self.neighbours[first]:
            self.neighbours[first].append(second)

    def angles(self):
        return [[math.acos(dot(self.vertices[v], self.vertices[w])) for w in ws] for v, ws in enumerate(self.neighbours)]

    def checksums(self):
        first = b"".join(struct.pack("<3d", *v) for v in self.vertices)
        first += bytes(len(ws) for ws in self.neighbours)
        first += b"".join(struct.pack("<6H", *(ws + [0])[:6]) for ws in self.neighbours)
        second = b"".join(struct.pack("<6d", *(angles + [0.0])[:6]) for angles in self.angles())
        return checksum(first), checksum(second)


def checksum(data):
    total = 0xCBF29CE484222325
    for byte in data:
        total = (total ^ byte) * 0x100000001B3 % 2**64
    return total


# ---- the reading rule


def on_side(side, point):
    x, y, z = point
    return [(y, z, x), (-y, z, -x), (x, z, y), (-x, z, -y), (x, y, z), (-x, y, -z)][side]


def cell(mesh, side, point):
    u, w, h = on_side(side, point)
    return [math.trunc(((s / h) * 0.5 + 0.5) * mesh.g) for s in (u, w)]


def side_of(p):
    sizes = [abs(x) for x in p]
    axis = sizes.index(max(sizes))
    return 2 * axis + (0 if p[axis] > 0 else 1)


def squared(p, v):
    d = less(p, v)
    return dot(d, d)


def nearest(mesh, p):
    side = side_of(p)
    at = [min(c, mesh.g - 1) for c in cell(mesh, side, p)]
    if mesh.cells is None:
        mesh.cells = [[(v, cell(mesh, s, x)) for v, x in enumerate(mesh.vertices) if on_side(s, x)[2] > 0] for s in range(6)]
    candidates = [v for v, c in mesh.cells[side] if abs(c[0] - at[0]) <= 1 and abs(c[1] - at[1]) <= 1]
    return min(candidates, key=lambda v: (squared(p, mesh.vertices[v]), v))


def weights(p, a, b, c):
    ab, ac = less(b, a), less(c, a)
    d1, d2 = dot(ab, less(p, a)), dot(ac, less(p, a))
    if d1 <= 0 and d2 <= 0:
        return [1.0, 0.0, 0.0]
    d3, d4 = dot(ab, less(p, b)), dot(ac, less(p, b))
    if d3 >= 0 and d4 <= d3:
        return [0.0, 1.0, 0.0]
    vc = fused(d1, d4, -(d3 * d2))
    if vc <= 0 and d1 >= 0 and d3 <= 0:
        v = d1 / (d1 - d3)
        return [1 - v, v, 0.0]
    d5, d6 = dot(ab, less(p, c)), dot(ac, less(p, c))
    if d6 >= 0 and d5 <= d6:
        return [0.0, 0.0, 1.0]
    vb = fused(d5, d2, -(d1 * d6))
    if vb <= 0 and d2 >= 0 and d6 <= 0:
        w = d2 / (d2 - d6)
        return [1 - w, 0.0, w]
    va = fused(d3, d6, -(d5 * d4))
    if va <= 0 and d4 - d3 >= 0 and d5 - d6 >= 0:
        w = (d4 - d3) / ((d4 - d3) + (d5 - d6))
        return [0.0, 1 - w, w]
    q = 1 / ((va + vb) + vc)
    v, w = vb * q, vc * q
    return [(1 - v) - w, v, w]


def faces_of(mesh, v):
    """In the page's order: by i, then by the places of j and k in i's list."""
    found = []
    for i in sorted([v] + mesh.neighbours[v]):
        ws = mesh.neighbours[i]
        found += [(i, j, k) for j in ws for k in ws if i < j < k and k in mesh.neighbours[j] and v in (i, j, k)]
    return found


def face_and_weights(mesh, p):
    best, found = -math.inf, ((0, 0, 0), [0.0, 0.0, 0.0])
    for face in faces_of(mesh, nearest(mesh, p)):
        w = weights(p, *(mesh.vertices[v] for v in face))
        if min(w) > best:
            best, found = min(w), (face, w)
    return found


def unit(d):
    length = math.sqrt(dot(d, d))
    return [x / length for x in d]


class Table:
    def __init__(self, data):
        self.data = data
        self.rmin, self.dr, self.step, _, self.n_r, self.n_omega, levels = struct.unpack_from("<dddIIII", data, 4)
        self.rows = 48 + 4 * levels
        self.energies = self.rows + 10 * self.n_r * self.n_omega + 4
        self.sixth = self.energies + 4 * struct.unpack_from("<I", data, self.energies - 4)[0]

    def distance_bin(self, r):
        """None outside."""
        if r < self.rmin or r > fused(float(self.n_r), self.dr, self.rmin):
            return None
        return min(math.trunc((r - self.rmin) / self.dr + 0.5), self.n_r - 1)

    def row(self, slab):
        return struct.unpack_from("<BBIf", self.data, self.rows + 10 * slab)

    def energy(self, place):
        return struct.unpack_from("<f", self.data, self.energies + 4 * place)[0]

    def answers(self, meshes, r, omega, a, b):
        """Of a reading, and the tail."""
        return (*self.reading(meshes, r, omega, a, b), tail(self.data, self.sixth, r))

    def reading(self, meshes, r, omega, a, b):
        """The energy, and the squared distances that it shows."""
        ri = self.distance_bin(r)
        if ri is None:
            return 0.0, 0.0, 0.0
        t = math.fmod(omega, TAU)
        t = t + TAU if t < 0 else t
        oi = math.trunc(t / self.step + 0.5) % self.n_omega
        kind, level, offset, scalar = self.row(ri * self.n_omega + oi)
        if kind < 2:
            return math.inf if kind == 1 else scalar, 0.0, 0.0
        mesh, p, q = meshes[level], unit(a), unit(b)
        energy = lambda v, w: self.energy(offset + v * mesh.n + w)
        if kind == 2:
            v, w = nearest(mesh, p), nearest(mesh, q)
            return energy(v, w), squared(p, mesh.vertices[v]), squared(q, mesh.vertices[w])
        (fa, wa), (fb, wb) = face_and_weights(mesh, p), face_and_weights(mesh, q)
        total = 0.0
        for i in range(3):
            for j in range(3):
                total = total + (wa[i] * energy(fa[i], fb[j])) * wb[j]
        return total, 0.0, 0.0


class AtomTable(Table):
    def __init__(self, data):
        self.data = data
        self.rmin, self.dr, _, self.n_r, levels = struct.unpack_from("<ddIII", data, 4)
        self.rows = 36 + 4 * levels
        self.energies = self.rows + 10 * self.n_r + 4

    def answers(self, meshes, r, direction):
        return self.reading(meshes, r, direction)

    def reading(self, meshes, r, direction):
        ri = self.distance_bin(r)
        if ri is None:
            return (0.0,)
        kind, level, offset, scalar = self.row(ri)
        if kind < 2:
            return (math.inf if kind == 1 else scalar,)
        mesh, p = meshes[level], unit(direction)
        if kind == 2:
            return (self.energy(offset + nearest(mesh, p)),)
        face, w = face_and_weights(mesh, p)
        t = [w[i] * self.energy(offset + face[i]) for i in range(3)]
        return ((t[0] + t[1]) + t[2],)


# ---- the tail's rule


def float_of(pattern):
    return struct.unpack(">d", bytes.fromhex(pattern))[0]


def power(r, n):
    if n == 0:
        return 1.0
    h = power(r, n // 2)
    return (h * h) * r if n % 2 else h * h


def exponential(y):
    if y < float_of("C08749999999999A"):
        return 0.0
    if y > float_of("40862E51EB851EB8"):
        return math.inf
    k = math.floor(y * float_of("3FF71547652B82FE") + 0.5)
    t = (y - k * float_of("3FE62E42FEE00000")) - k * float_of("3DEA39EF35793C76")
    p = 0.0
    for j in range(13, -1, -1):
        p = p * t + 1 / math.factorial(j)
    h = k // 2
    return (p * 2.0**h) * 2.0 ** (k - h)


def tail(data, start, r):
    """The sixth section begins at a byte; where the file ends there is none."""
    if start == len(data):
        return 0.0
    (count,) = struct.unpack_from("<I", data, start)
    total = -0.0
    for i in range(count):
        c, kappa, n = struct.unpack_from("<ddI", data, start + 4 + 20 * i)
        total = total + (c * exponential(-kappa * r)) / power(r, n)
    return struct.unpack_from("<d", data, start + 4 + 20 * count)[0] * total


# ---- the comparison


LEVELS, DISTANCES, DIHEDRALS = 7, 8, 2


def made_sections(draw, power):
    """Sections 3 to 5: every level below LEVELS, nearest and interpolated, a scalar and a wall, by the page's rows."""
    rows, energies = b"", b""
    kinds = [(2, m) for m in range(LEVELS)] + [(3, m) for m in range(LEVELS)] + [(0, 0), (1, 0)]
    for kind, m in kinds:
        held = (10 * (m + 1) ** 2 + 2) ** power if kind >= 2 else 0
        offset = len(energies) // 4 if held else 0xFFFFFFFF
        rows += struct.pack("<BBI", kind, m, offset) + (struct.pack("<f", -1.25) if kind == 0 else bytes(4))
        energies += struct.pack(f"<{held}f", *(draw.uniform(-40, 40) for _ in range(held)))
    levels = struct.pack(f"<{LEVELS + 1}I", LEVELS, *(10 * (m + 1) ** 2 + 2 for m in range(LEVELS)))
    return levels + struct.pack("<I", len(kinds)) + rows + struct.pack("<I", len(energies) // 4) + energies


def made_table(draw):
    file = struct.pack("<Iddd", 3, 0.75, 0.3, TAU / DIHEDRALS) + struct.pack("<3I", 2, DISTANCES, DIHEDRALS)
    terms = [(2.0, 0.0, 1), (-3.5, 0.25, 6), (0.125, -0.5, 0), (40.0, 3.0, 13)]
    sixth = struct.pack("<I", len(terms)) + b"".join(struct.pack("<ddI", *term) for term in terms) + struct.pack("<d", 17.7)
    return file + made_sections(draw, 2) + sixth


def made_atom_table(draw):
    file = struct.pack("<Idd", 2, 0.75, 0.15) + struct.pack("<2I", 1, DISTANCES * DIHEDRALS)
    return file + made_sections(draw, 1)


def made_direction(draw, meshes):
    """At random, of small whole numbers (on edges of the cube and of faces), at vertices and between two."""
    way = draw.randrange(4)
    mesh = draw.choice(meshes)
    v = draw.randrange(mesh.n)
    if way == 0:
        d = [float(draw.randint(-3, 3)) for _ in range(3)]
    elif way == 1:
        d = mesh.vertices[v]
    elif way == 2:
        d = [x + y for x, y in zip(mesh.vertices[v], mesh.vertices[draw.choice(mesh.neighbours[v])])]
    else:
        d = [draw.gauss(0, 1) for _ in range(3)]
    return d if any(d) else [0.0, 0.0, -2.5]


def made_distance(draw):
    return draw.choice([draw.uniform(0.5, 3.5), 0.75 + 0.15 * draw.randrange(18)])


def made_query(draw, meshes):
    return made_distance(draw), draw.uniform(-20, 20), made_direction(draw, meshes), made_direction(draw, meshes)


def made_atom_query(draw, meshes):
    return made_distance(draw), made_direction(draw, meshes)


def bits(x):
    return struct.pack(">d", x).hex().upper()


def compare_checksums(page, meshes):
    differing = 0
    for m, mesh in enumerate(meshes):
        row = "| {} | {} | {:016X} | {:016X} |".format(m, mesh.n, *mesh.checksums())
        if row not in page:
            print(f"the page has another row than {row}")
            differing += 1
    return differing


def numbers(query):
    """Its f64 in their order."""
    return [x for part in query for x in (part if isinstance(part, list) else [part])]


def compare_readings(ask, name, table, queries, meshes):
    """Of a table, by the page's rule and by ASK, which reads its file."""
    with open(name, "wb") as out:
        out.write(table.data)
    lines = "".join(" ".join(bits(x) for x in numbers(query)) + "\n" for query in queries)
    answers = subprocess.run([ask, name], input=lines, capture_output=True, text=True, check=True).stdout.split("\n")
    differing = 0
    for query, answer in zip(queries, answers, strict=False):
        wanted = " ".join(["0"] + [bits(x) for x in table.answers(meshes, *query)])
        if answer != wanted:
            print(f"the library answers {answer}, the page's rule {wanted}: {query}")
            differing += 1
    return differing + abs(len(answers) - 1 - len(queries))


def main():
    page, ask, folder = sys.argv[1:]
    meshes = [Mesh(m) for m in range(16)]
    with open(page, encoding="utf-8") as text:
        wrong = compare_checksums(text.read().split("\n"), meshes)
    count, draw = 12000, random.Random(20)
    table, atom_table = Table(made_table(draw)), AtomTable(made_atom_table(draw))
    queries = [made_query(draw, meshes[:LEVELS]) for _ in range(count)]
    atom_queries = [made_atom_query(draw, meshes[:LEVELS]) for _ in range(count)]
    differing = compare_readings(ask, f"{folder}/page.icotable", table, queries, meshes)
    atom_differing = compare_readings(ask, f"{folder}/page_atom.icotable", atom_table, atom_queries, meshes)
    print(f"by the page: 16 levels, {wrong} with other checksums; {count} readings, {differing} differ")
    print(f"by the page, against an atom: {count} readings, {atom_differing} differ")
    return 1 if wrong or differing or atom_differing else 0


if __name__ == "__main__":
    sys.exit(main())
