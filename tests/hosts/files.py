#!/usr/bin/env python3
"""A sealed table, its mesh file and its journal, read by what docs/FORMAT.md says of them, with Python's own crc32 and SHA-256: files.py TABLE."""
import hashlib
import os
import struct
import sys
import zlib

NUMBERS = ["rmin", "rmax", "dr", "omega_step", "threshold", "beta"]
NAMES = ["version", "kind", "length", "sha256", *NUMBERS, "n_r", "n_omega", "top", "levels", "meshes", "own_meshes", "journal"]
NAMES += ["guarded", "whole", "id", "label"]


def contents(name):
    with open(name, "rb") as file:
        return file.read()


def fnv(data):
    total = 0xCBF29CE484222325
    for byte in data:
        total = (total ^ byte) * 0x100000001B3 % 2**64
    return total


def read_meshes(data):
    """Of each level its four lists; every checksum is of all before it but the checksums."""
    magic, version, levels, total = struct.unpack_from("<8s3I", data)
    assert magic == b"ICOTMESH" and version == 1 and 1 <= levels <= 16 and total == zlib.crc32(data[:16])
    at, parts = 20, []
    for m in range(levels):
        n = 10 * (m + 1) ** 2 + 2
        total = zlib.crc32(data[at : at + 85 * n], total)
        ends = [at, at + 24 * n, at + 25 * n, at + 37 * n, at + 85 * n]
        parts.append([data[x:y] for x, y in zip(ends, ends[1:])])
        assert data[ends[-1] : ends[-1] + 4] == struct.pack("<I", total)
        for v, count in enumerate(parts[m][1]):
            assert count == 6 or (parts[m][2][12 * v + 10 : 12 * v + 12] == bytes(2) and parts[m][3][48 * v + 40 : 48 * v + 48] == bytes(8))
        at = ends[-1] + 4
    assert at == len(data)
    return parts


def hash_of(parts):
    return fnv(b"".join(b"".join(level[k] for level in parts) for k in range(4)))


def read_seal(data):
    lines = data.decode("utf-8").split("\n")
    assert lines[0] == "icotable seal 2" and lines[-1] == ""
    last = f"checksum {zlib.crc32(data[: data.rindex(b'checksum ')]):08X}"
    assert lines[-2] == last
    seal = dict(line.split(" ", 1) for line in lines[1:-2])
    atom = seal["kind"] == "atom"
    names = [name for name in NAMES if not (atom and name in ("omega_step", "n_omega"))]
    assert list(seal) == names
    for name in NUMBERS:
        assert name not in seal or seal[name] == "%.17g" % float(seal[name])
    return seal


def main():
    name = sys.argv[1]
    seal, table = read_seal(contents(f"{name}.meta")), contents(name)
    assert seal["length"] == str(len(table)) and seal["sha256"] == hashlib.sha256(table).hexdigest()
    assert seal["journal"] == hashlib.sha256(contents(f"{name}.journal")).hexdigest()
    journal = contents(f"{name}.journal")
    assert f"{struct.unpack_from('<Q', journal, 72)[0]:016X}" == seal["meshes"], "the journal has the hash of other meshes"
    length = struct.unpack_from("<I", journal, 108)[0]
    assert struct.unpack_from("<I", journal, 8)[0] == 2 and journal[92:108].hex() == seal["id"], "the journal has another id"
    assert journal[112 : 112 + length].decode() == seal["label"] and seal["guarded"] == seal["whole"] == "yes"
    assert struct.unpack_from("<6d", journal, 24) == tuple(float(seal.get(n, 0)) for n in NUMBERS), "the journal has other settings"
    assert (seal["own_meshes"] == "no") == os.path.exists(f"{name}.mesh")
    if seal["own_meshes"] == "no":
        parts = read_meshes(contents(f"{name}.mesh"))
        assert len(parts) == int(seal["levels"]) and f"{hash_of(parts):016X}" == seal["meshes"]
    print(f"files: {name}: as docs/FORMAT.md has it")


main()
