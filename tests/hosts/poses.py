"""The meaning of a, b and omega: poses.py TABLE ION_TABLE.

Places the two bodies of the demonstration by quaternions, as the Rust's `orient` does it (docs/GUIDE.md, What a table
is), works out their energy, and compares it with what the tables hold. Nothing here is shared with hosts/c/molecules.c
but the sites.
"""

import math
import sys

import simgrale

FIRST = [((0.0, 0.0, 2.6), 1.0, 3.2), ((0.9, 0.0, 0.8), 0.0, 3.8),
         ((-0.9, 0.4, -0.8), 0.0, 3.8), ((0.0, 0.3, -2.6), -1.0, 3.2)]  # fmt: skip
SECOND = [((0.0, 0.0, 2.0), -1.0, 3.0), ((0.6, 0.5, 0.4), 0.0, 3.6),
          ((-0.6, 0.4, -1.0), 0.4, 3.4), ((0.2, -0.7, -2.0), -0.4, 3.2)]  # fmt: skip
ION = [((0.0, 0.0, 0.0), 1.0, 2.6)]
UP, DOWN = (0.0, 0.0, 1.0), (0.0, 0.0, -1.0)


def dot(u, v):
    return sum(x * y for x, y in zip(u, v))


def cross(u, v):
    return (u[1] * v[2] - u[2] * v[1], u[2] * v[0] - u[0] * v[2], u[0] * v[1] - u[1] * v[0])


def normal(q):
    length = math.sqrt(dot(q, q))
    return tuple(x / length for x in q)


def times(p, q):
    vector = [p[0] * y + q[0] * x + z for x, y, z in zip(p[1:], q[1:], cross(p[1:], q[1:]))]
    return (p[0] * q[0] - dot(p[1:], q[1:]), *vector)


def conjugate(q):
    return (q[0], -q[1], -q[2], -q[3])


def turned(q, v):
    return times(times(q, (0.0, *v)), conjugate(q))[1:]


def between(start, end):
    """The least rotation from one direction to another; of opposite ones the half turn about start x (1, 0, 0)."""
    along = dot(start, end)
    if along < -1 + 1e-12:
        axis = normal(cross(start, (1.0, 0.0, 0.0) if abs(start[0]) < 0.9 else (0.0, 1.0, 0.0)))
        return (0.0, *axis)
    return normal((1 + along, *cross(start, end)))


def orient(r, omega, a, b):
    """How the second body is turned, and where it is; the first is at the origin and not turned."""
    q1, q2, q3 = between(b, DOWN), (math.cos(omega / 2), 0.0, 0.0, math.sin(omega / 2)), between(UP, a)
    return times(times(q3, q1), q2), turned(q3, (0.0, 0.0, r))


def site_energy(one, other, squared):
    sixth = ((one[2] + other[2]) / 2) ** 6 / max(squared, 0.25) ** 3
    distance = math.sqrt(max(squared, 0.25))
    return 3.2 * (sixth * sixth - sixth) + 17.7 * one[1] * other[1] * math.exp(-distance / 9.6) / distance


def energy(others, q, at):
    """Of the first body at the origin and another, turned by q and moved."""
    placed = [(other, tuple(x + y for x, y in zip(turned(q, other[0]), at))) for other in others]
    return sum(site_energy(one, other, math.dist(one[0], place) ** 2) for one in FIRST for other, place in placed)


def told(vertices):
    """Some vertices, those at both poles among them."""
    poles = [i for i, v in enumerate(vertices) if abs(v[2]) == 1]
    assert len(poles) == 2, f"{len(poles)} vertices at the poles"
    return poles + list(range(1, len(vertices), 17))


def check_meaning(omega, a, b, q):
    """docs/GUIDE.md: b is Rz(omega) times the direction of the first body in the second's own frame."""
    x, y, z = turned(conjugate(q), tuple(-c for c in a))
    c, s = math.cos(omega), math.sin(omega)
    gap = math.dist((c * x - s * y, s * x + c * y, z), b)
    assert gap < 1e-12, f"b is {gap} off at omega {omega}, a {a}, b {b}"
    # and omega is the twist around z
    w, i, j, k = times(conjugate(between(UP, a)), q)
    twist = math.atan2(i, j) if b == UP else math.atan2(k, w)
    gap = abs(math.remainder(2 * twist - omega, math.tau))
    assert gap < 1e-9, f"omega is {gap} off at {omega}, a {a}, b {b}"


def check_dipoles(a, b, q):
    """README.md's energy of two dipoles along z, whatever omega is."""
    along = turned(q, UP)
    wanted = along[2] - 3 * a[2] * dot(along, a)
    found = 2 * a[2] * b[2] - a[0] * b[0] - a[1] * b[1]
    assert abs(found - wanted) < 1e-12, f"dipoles: {found}, not {wanted}, at a {a}, b {b}"


def check_pair(table, ri, oi, vertices, slab):
    r, omega = table.grid.r[ri], table.grid.omega[oi]
    for i in told(vertices):
        for j in told(vertices):
            q, at = orient(r, omega, vertices[i], vertices[j])
            check_meaning(omega, vertices[i], vertices[j], q)
            check_dipoles(vertices[i], vertices[j], q)
            wanted, found = energy(SECOND, q, at), float(slab[i, j])
            where = f"slab ({ri}, {oi}), a at vertex {i}, b at vertex {j}"
            assert math.isclose(found, wanted, rel_tol=1e-5, abs_tol=1e-6), f"{where}: {found}, not {wanted}"
    return len(told(vertices)) ** 2


def pairs(path):
    """Every dihedral bin of each slice whose slabs hold energies of level 3, which has vertices at the poles."""
    count = 0
    with simgrale.Table.open(path) as table:
        rows, vertices = table.rows(), [tuple(map(float, v)) for v in table.vertices(3)]
        for ri, oi in zip(*(rows["level"] == 3).nonzero()):
            count += check_pair(table, int(ri), int(oi), vertices, table.slab(ri, oi)) if ri % 4 == 3 else 0
    return count


def check_ion(r, slab, vertices):
    for found, a in zip(slab, vertices):
        wanted = energy(ION, (1.0, 0.0, 0.0, 0.0), tuple(float(r * x) for x in a))
        assert math.isclose(found, wanted, rel_tol=1e-5, abs_tol=1e-6), f"distance {r}: {found}, not {wanted}"
    return len(slab)


def ions(path):
    with simgrale.AtomTable.open(path) as table:
        held = (table.rows()["level"] == 5).nonzero()[0]
        return sum(check_ion(table.grid.r[ri], table.slab(ri), table.vertices(5)) for ri in held)


print(f"poses: {pairs(sys.argv[1])} of two bodies and {ions(sys.argv[2])} of a body and an ion are the Rust's")
