#!/usr/bin/env python3
"""Whether lines of pages end at 120 columns: columns.py PAGE... Lines of tables may be longer."""
import re
import sys

COLUMNS = 120
count, wrong = 0, 0
for page in sys.argv[1:]:
    with open(page, encoding="utf-8") as text:
        for number, line in enumerate(text.read().split("\n"), 1):
            count += 1
            if len(line) > COLUMNS and not re.match(r"\s*\|", line):
                print(f"{page}, line {number}: {len(line)} columns")
                wrong += 1
print(f"{count} lines, {wrong} too long")
sys.exit(wrong > 0)
