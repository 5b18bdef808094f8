#!/usr/bin/env python3
"""Writes a tuple as the record that a check asks for (docs/PORT.md).

usage: rt check 2>&1 | tools/port/records.py      in the crate's folder
"""
import re
import sys


def parts(text, start):
    """the parts of the tuple whose bracket is at start, and where it ends"""
    depth, out, last = 0, [], start + 1
    for i in range(start, len(text)):
        if text[i] in "([{":
            depth += 1
        elif text[i] in ")]}":
            depth -= 1
            if depth == 0:
                out.append(text[last:i])
                return [p.strip() for p in out if p.strip()], i + 1
        elif text[i] == "," and depth == 1:
            out.append(text[last:i])
            last = i + 1


asked, at = {}, None
for line in sys.stdin:
    m = re.match(r"(?:so far: )?\./(\S+):(\d+):(\d+): error:", line)
    if m:
        at = (m.group(1), int(m.group(2)), int(m.group(3)))
    m = re.match(r"\s+is built with `record \{ (.*) \}`, not as a tuple", line)
    if m and at:
        asked[at] = [f.split(" = ")[0] for f in m.group(1).split("; ")]
for (path, line, column), fields in sorted(asked.items(), reverse=True):
    text = open(path).read()
    lines = text.split("\n")
    at = sum(len(x) + 1 for x in lines[:line - 1]) + column - 1
    if text[at] != "(":
        print("%s:%d: not a tuple" % (path, line))
        continue
    found, end = parts(text, at)
    if len(found) != len(fields):
        print("%s:%d: %d parts, %d fields" % (path, line, len(found), len(fields)))
        continue
    record = "record { " + "; ".join("%s = %s" % (f, p) for f, p in zip(fields, found)) + " }"
    open(path, "w").write(text[:at] + record + text[end:])
    print("%s:%d: record" % (path, line))
