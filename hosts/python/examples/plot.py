#!/usr/bin/python3
"""A picture of a table: plot.py TABLE [OUT.png].

Left the energy profile over distance, for some poses and their mean by Boltzmann weight, over both directions and the
dihedral angle; right a slab, the energies of all pairs of vertices, at the distance of the profile's lowest energy.
Against an atom the slab is drawn over longitude and latitude. Needs matplotlib; without it the profile is printed.
"""

import os
import sys
from pathlib import Path

import numpy as np

sys.path.insert(0, str(Path(__file__).resolve().parents[1]))
import simgrale

BETA = 0.40339
DIHEDRALS = 24  # at most so many of them are averaged over, evenly spaced


def directions(count):
    """So many directions, spread evenly over the sphere."""
    z = 1 - (np.arange(count) + 0.5) * 2 / count
    angle = np.arange(count) * np.pi * (3 - 5**0.5)
    across = np.sqrt(1 - z * z)
    return np.stack([across * np.cos(angle), across * np.sin(angle), z], axis=-1)


def profiles(table):
    """Distances; the energies at some 40 of many poses; -ln(mean exp(-beta*energy))/beta of all, over omega, too."""
    r = np.linspace(table.grid.rmin, table.grid.rmax, 400)[:-1]
    if isinstance(table, simgrale.AtomTable):
        energies = table.energies(r[:, None], directions(200))
    else:
        omega = table.grid.omega[:: -(-table.grid.n_omega // DIHEDRALS)]
        a, b = directions(24)[:, None], directions(24)
        energies = table.energies(r[:, None, None, None], omega[:, None, None], a, b).reshape(len(r), -1)
    with np.errstate(divide="ignore"):
        mean = -np.log(np.mean(np.exp(-BETA * energies), axis=1)) / BETA
    return r, energies[:, :: energies.shape[1] // 40], mean


def fullest(table, r):
    """The bins of the slab with energies that is nearest to a distance."""
    kinds = table.rows()["kind"].reshape(table.grid.n_r, table.grid.n_omega)
    held = np.argwhere(kinds >= simgrale.Kind.NEAREST)
    if len(held) == 0:
        sys.exit("plot.py: no slab of this table holds energies")
    return held[np.argmin(np.abs(table.grid.r[held[:, 0]] - r))]


def limits(slab):
    """Colours from the lowest energy to as much above 0, so that a well is seen beside its walls."""
    depth = max(-float(slab.min()), 0.01)
    return {"vmin": -depth, "vmax": depth, "cmap": "coolwarm"}


def draw_slab(axes, figure, table, ri, oi):
    if isinstance(table, simgrale.AtomTable):
        slab = table.slab(ri)
        x, y, z = table.vertices(table.rows()[ri]["level"]).T
        drawn = axes.scatter(np.degrees(np.arctan2(y, x)), np.degrees(np.arcsin(z)), c=slab, **limits(slab))
        axes.set(xlabel="longitude of the direction, degrees", ylabel="latitude, degrees", title=f"slab {ri}, distance {table.grid.r[ri]:g}")
    else:
        slab = table.slab(ri, oi)
        drawn = axes.imshow(slab, origin="lower", **limits(slab))
        where = f"distance {table.grid.r[ri]:g}, dihedral {table.grid.omega[oi]:.3g}"
        axes.set(xlabel="vertex of direction b", ylabel="vertex of direction a", title=f"slab ({ri}, {oi}), {where}")
    figure.colorbar(drawn, ax=axes, extend="max", label="energy")


def draw(table, r, some, mean, out):
    import matplotlib

    matplotlib.use("Agg")
    from matplotlib import pyplot

    figure, (left, right) = pyplot.subplots(1, 2, figsize=(12, 5), constrained_layout=True)
    left.plot(r, np.where(np.isfinite(some), some, np.nan), color="0.75", linewidth=0.7)
    label = "-ln(mean weight) / beta, over all orientations"
    left.plot(r, np.where(np.isfinite(mean), mean, np.nan), color="tab:blue", label=label)
    lowest = float(np.nanmin(some[np.isfinite(some)]))
    left.set(xlabel="distance", ylabel="energy", ylim=(1.2 * min(lowest, -0.1), -1.2 * min(lowest, -0.1)), title=os.path.basename(table.path))
    left.legend(frameon=False)
    draw_slab(right, figure, table, *fullest(table, r[np.nanargmin(mean)]))
    figure.savefig(out, dpi=110)
    pyplot.close(figure)
    print(f"plot.py: {out}")


def main():
    if len(sys.argv) not in (2, 3):
        sys.exit("usage: plot.py TABLE [OUT.png]")
    try:
        table = simgrale.open_table(sys.argv[1])
    except simgrale.Refused as refused:
        sys.exit(f"plot.py: {refused}")
    with table:
        r, some, mean = profiles(table)
        try:
            draw(table, r, some, mean, sys.argv[2] if len(sys.argv) == 3 else "table.png")
        except ModuleNotFoundError as missing:
            if missing.name != "matplotlib":
                raise
            print("plot.py: there is no matplotlib here; distance and mean energy:")
            for pair in zip(r[::8], mean[::8]):
                print("%8.3f %12.5g" % pair)


if __name__ == "__main__":
    main()
