#!/usr/bin/env python3
"""Writes the clauses that a check asks for where no clause covers a case (docs/PORT.md).

usage: rt check 2>&1 | tools/port/cases.py      in the crate's folder
"""
import re
import sys

asked, at = {}, None
for line in sys.stdin:
    m = re.match(r"(?:so far: )?\./(\S+):(\d+):\d+: error: `([^`]+)`: write the clause `((\S+) [^`]*)`", line)
    if m:
        found = asked.setdefault((m.group(1), int(m.group(2)), m.group(3), m.group(5)), [])
        if m.group(4) not in found:
            found.append(m.group(4))
        continue
    m = re.match(r"(?:so far: )?\./(\S+):(\d+):\d+: error: `([^`]+)`: write the clauses", line)
    if m:
        at = (m.group(1), int(m.group(2)), m.group(3))
        continue
    clause = re.match(r"  (\S+) [^=]*= ", line) if at else None
    if clause and not line.startswith("  no clause"):
        found = asked.setdefault(at + (clause.group(1),), [])
        if line.strip() not in found:
            found.append(line.strip())
    elif at and not line.startswith("  "):
        at = None
files = {}
for (path, number, name, word), clauses in sorted(asked.items(), reverse=True):
    lines = files.setdefault(path, open(path).read().split("\n"))
    i = number - 1
    while i > 0 and not re.match(r"\s*(?:pub )?%s :" % re.escape(name), lines[i]):
        i -= 1
    while word != name and not re.match(r"\s*%s :" % re.escape(word), lines[i]):
        i += 1
    i += 1
    while not re.match(r"\s*%s (?!:)" % re.escape(word), lines[i]):
        i += 1
    indent = re.match(r"\s*", lines[i]).group(0)
    lines[i:i] = [indent + c for c in clauses]
    print("%s: %s: %d" % (path, name, len(clauses)))
for path, lines in files.items():
    open(path, "w").write("\n".join(lines))
