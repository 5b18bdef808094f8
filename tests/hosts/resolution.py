#!/usr/bin/env python3
"""The table of docs/GUIDE.md by level, beside what icotable inspect --resolution prints for a table of 16 levels, and its means beside those of
tests/hosts/distances.c: resolution.py GUIDE TOLD MEANS. The status is 1 where a row differs, a mean, which the
page has to two digits and which is drawn anew each time, by more than a tenth."""
import sys


def rows(page):
    """Level, vertices, apart, farthest, farthest squared and mean squared of each row, as words."""
    section = page.split("\n## Is my level fine enough?\n")[1].split("\n## ")[0]
    found = [[word.strip() for word in line.strip("|").split("|")] for line in section.split("\n") if line.startswith("| ")]
    return [row for row in found if row[0].isdigit()]


def main():
    page, told, means = (open(name, encoding="utf-8").read() for name in sys.argv[1:])
    lines = {words[0]: words for words in map(str.split, told.split("\n")) if len(words) == 8 and words[0].isdigit()}
    mean = dict(words for words in map(str.split, means.split("\n")) if len(words) == 2)
    wrong = 0
    for level, n, apart, farthest, squared, average in rows(page):
        _, vertices, _, _, low, high, angle, square = lines[level]
        wanted = [vertices, low if low == high else f"{low} to {high}", angle, square]
        if [n, apart, farthest, squared] != wanted or abs(float(average) / float(mean[level]) - 1) > 0.1:
            print(f"docs/GUIDE.md has {n}, {apart}, {farthest}, {squared}, {average} at level {level}; found were {wanted}, {mean[level]}")
            wrong += 1
    print(f"resolution: {len(rows(page))} levels of docs/GUIDE.md, {wrong} differ; {len(lines)} levels told")
    return 1 if wrong or len(lines) != 16 or len(rows(page)) < 8 else 0


sys.exit(main())
