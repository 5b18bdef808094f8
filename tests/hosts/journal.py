#!/usr/bin/env python3
"""A journal read by what docs/FORMAT.md says of the file, with Python's own zlib.crc32: journal.py FILE tells its records. journal.py FILE
OUT gradient N, level N, energy N, without N, version, library or meshes writes it with that altered, in record N, and all checksums made
anew: damage that only the playing can find. journal.py FILE OTHER calls tells whether both have the same calls and answers."""
import struct
import sys
import zlib

HEAD = struct.Struct("<8sIIQ6dQ")
MORE = struct.Struct("<3I16sI")  # of version 2, and the label behind it
CALL = struct.Struct("<4Q")
ANSWER = struct.Struct("<QQdQ")


def refuse(why):
    sys.exit(f"journal.py: {why}")


class Reader:
    """Bytes in their order, and the sum of all but checksums and ends."""

    def __init__(self, data):
        self.data, self.at, self.sum = data, 0, 0

    def take(self, count):
        part = self.data[self.at : self.at + count]
        if len(part) != count:
            refuse(f"the file ends at byte {len(self.data)}")
        self.at += count
        return part

    def summed(self, count):
        part = self.take(count)
        self.sum = zlib.crc32(part, self.sum)
        return part

    def check(self):
        if struct.unpack("<I", self.take(4))[0] != self.sum:
            refuse(f"the checksum before byte {self.at} is not zlib's crc32")


def read(data):
    """Head and records, each as its numbers."""
    r, records = Reader(data), []
    head = list(HEAD.unpack(r.summed(HEAD.size)))
    if head[1] == 2:
        head += MORE.unpack(r.summed(MORE.size))
        head.append(r.summed(head[-1]))
    r.check()
    while r.at < len(data):
        call = list(CALL.unpack(r.summed(CALL.size)))
        r.check()
        energies = bytearray(r.summed(8 * call[3]))
        answer = list(ANSWER.unpack(r.summed(ANSWER.size)))
        r.check()
        if r.take(4) != b"end\n":
            refuse(f"a record does not end at byte {r.at}")
        records.append((call, energies, answer))
    return head, records


def made(head, records):
    out = bytearray(HEAD.pack(*head[:11]))
    if len(head) > 11:
        out += MORE.pack(*head[11:16]) + head[16]
    total = zlib.crc32(out)
    out += struct.pack("<I", total)
    for call, energies, answer in records:
        part = CALL.pack(*call)
        total = zlib.crc32(part, total)
        out += part + struct.pack("<I", total)
        part = bytes(energies) + ANSWER.pack(*answer)
        total = zlib.crc32(part, total)
        out += part + struct.pack("<I", total) + b"end\n"
    return bytes(out)


def altered(head, records, what, n):
    call, energies, answer = records[n]
    if what == "version":
        head[1] = 3
    elif what == "library":
        head[12] += 1
        answer[2] += 0.25
    elif what == "meshes":
        head[10] ^= 1
        del records[:]
    elif what == "gradient":
        answer[2] += 0.25
    elif what == "level":
        answer[1] += 1
    elif what == "without":
        del records[n]
    elif what == "energy":
        energies[-2:] = b"\xf8\x7f"  # a NaN
    else:
        refuse(f"no such alteration: {what}")


def main():
    with open(sys.argv[1], "rb") as file:
        data = file.read()
    head, records = read(data)
    if made(head, records) != data or head[0] != b"ICOTJRNL" or head[1] not in (1, 2):
        refuse("it is not made of head and records")
    if sys.argv[3:] == ["calls"]:
        with open(sys.argv[2], "rb") as file:
            sys.exit("the calls differ" if read(file.read())[1] != records else print("the same calls"))
    if len(sys.argv) > 3:
        altered(head, records, sys.argv[3], int((sys.argv + ["0"])[4]) if len(sys.argv) > 4 else 0)
        with open(sys.argv[2], "wb") as file:
            file.write(made(head, records))
    kinds = [call[0] for call, _, _ in records]
    print(f"{kinds.count(1)} fresh, {kinds.count(2)} set, {kinds.count(3)} settle; every checksum is zlib's crc32")


main()
