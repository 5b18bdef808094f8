#!/usr/bin/env python3
"""Whether pages point to what is there: links.py PAGE... Each link to a file and to a heading of it, and each docs/NAME in the text; and docs/README.md
names every file of docs/. Run in the folder that the pages' names begin from."""
import os
import re
import sys

wrong = []


def text_of(page):
    with open(page, encoding="utf-8") as file:
        return re.sub(r"^```.*?^```$", "", file.read(), flags=re.S | re.M)


def anchors(page):
    """As a forge makes them of headings: small letters, no signs, a dash for each space."""
    headings = re.findall(r"^#+ (.*)$", text_of(page), re.M)
    return {re.sub(r"[^\w\- ]", "", heading.lower()).replace(" ", "-") for heading in headings}


def linked(page, target):
    name, _, anchor = target.partition("#")
    path = os.path.normpath(os.path.join(os.path.dirname(page), name)) if name else page
    if not os.path.exists(path):
        wrong.append(f"{page}: there is no {path}")
    elif anchor and anchor not in anchors(path):
        wrong.append(f"{page}: {path} has no heading for #{anchor}")


count = 0
for page in sys.argv[1:]:
    for target in re.findall(r"\]\(([^)\s]+)\)", text_of(page)):
        if not target.startswith(("http:", "https:")):
            linked(page, target)
            count += 1
    for name in re.findall(r"\bdocs/[A-Z]+\.md\b", text_of(page)):
        count += 1
        if not os.path.exists(name):
            wrong.append(f"{page}: there is no {name}")
index = text_of("docs/README.md")
for name in sorted(os.listdir("docs")):
    if name.endswith(".md") and name != "README.md" and f"({name}" not in index:
        wrong.append(f"docs/README.md does not name {name}")
for line in wrong:
    print(line)
print(f"{count} links, {len(wrong)} wrong")
sys.exit(bool(wrong))
