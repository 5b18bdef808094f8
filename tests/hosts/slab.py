#!/usr/bin/env python3
"""Slab files read and written by what docs/FORMAT.md says of them, with Python's own zlib.crc32. slab.py JOURNAL FOLDER reads every slab file of the
folder, whose build has to be the journal's. slab.py JOURNAL FILE OUT nan, count, build or level writes a file with that altered and the checksum
made anew: what only its reader can find."""
import math
import os
import struct
import sys
import zlib

HEAD = struct.Struct("<8sIIQQQQQ")
WHOSE = struct.Struct("<16sI")  # of version 2, and the label behind it


def refuse(why):
    sys.exit(f"slab.py: {why}")


def build_of(journal):
    """FNV-1a of the bytes 12 to 79 of the journal's head and, in version 2, of those from 92 on: id, length of the label, label. Then the
    version, the kind, and those bytes."""
    with open(journal, "rb") as file:
        head = file.read(112 + 4096)
    version, kind = struct.unpack_from("<II", head, 8)
    whose = head[92 : 112 + struct.unpack_from("<I", head, 108)[0]] if version == 2 else b""
    total = 0xCBF29CE484222325
    for byte in head[12:80] + whose:
        total = (total ^ byte) * 0x100000001B3 % 2**64
    return total, version, kind, whose


def read(path):
    with open(path, "rb") as file:
        data = file.read()
    head = list(HEAD.unpack_from(data))
    front = HEAD.size
    if head[1] == 2:
        front += WHOSE.size + WHOSE.unpack_from(data, front)[1]
    if struct.unpack("<I", data[-4:])[0] != zlib.crc32(data[:-4]) or len(data) != front + 8 * head[7] + 4:
        refuse(f"{path} is damaged")
    return head, data[HEAD.size : front], bytearray(data[front:-4])


def write(path, head, whose, energies):
    data = HEAD.pack(*head) + whose + bytes(energies)
    with open(path, "wb") as file:
        file.write(data + struct.pack("<I", zlib.crc32(data)))


def alter(head, energies, what):
    if what == "nan":
        energies[-8:] = struct.pack("<d", math.nan)
    elif what == "count":
        head[7] -= 1
        del energies[-8:]
    elif what == "build":
        head[3] ^= 1
    elif what == "level":
        head[4] ^= 1
    else:
        refuse(f"no such alteration: {what}")


def look_over(journal, folder):
    names = [name for name in os.listdir(folder) if name.endswith(".icoslab")]
    build, version, kind, whose = build_of(journal)
    for name in names:
        head, told, _ = read(os.path.join(folder, name))
        vertices = 10 * (head[4] + 1) ** 2 + 2
        wanted = [b"ICOTSLAB", version, kind, build, head[4], head[5], head[6], vertices ** (2 - kind)]
        if head != wanted or told != whose or name != f"slab-{head[5]}-{head[6]}-{head[4]}.icoslab":
            refuse(f"{name} has the head {head}")
    print(f"{len(names)} slab files as docs/FORMAT.md has them")


def main():
    if len(sys.argv) == 3:
        return look_over(*sys.argv[1:])
    head, whose, energies = read(sys.argv[2])
    alter(head, energies, sys.argv[4])
    return write(sys.argv[3], head, whose, energies)


main()
