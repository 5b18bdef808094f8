#!/usr/bin/env python3
"""Says which edits do not fit the text: each old text of tests/edits/*/*.edit, uncounted/*/*.edit and of the crates'
must-fail/*.edit has to stand exactly once in its file, as the pairs before it left that file. The status is 1 if one
does not."""
import os
import sys
from glob import glob

TOP = os.path.dirname(os.path.dirname(os.path.dirname(os.path.abspath(__file__))))


def pairs(edit):
    """The file, the old and the new text of each replacement."""
    name, old = "", ""
    with open(edit, encoding="utf8") as lines:
        for line in lines:
            word, _, rest = line.rstrip("\n").partition(":")
            rest = rest.removeprefix(" ")
            if word == "file":
                name = rest
            elif word == "old":
                old = rest
            elif word == "new":
                yield name, old, rest
                old = ""


def misfits(edit, folder):
    """What does not fit, in words, over the crate's folder."""
    texts, said, some = {}, [], False
    for name, old, new in pairs(edit):
        some = True
        path = os.path.join(folder, name)
        if not os.path.isfile(path):
            said.append(f"no file {name}")
            continue
        if name not in texts:
            with open(path, encoding="utf8") as file:
                texts[name] = file.read()
        count = texts[name].count(old) if old else 0
        if count != 1:
            said.append(f"{count} times in {name}: {old}")
        texts[name] = texts[name].replace(old, new, 1) if count else texts[name]
    return said if some else ["it has no pair of old and new"]


def all_edits():
    """Each edit with its crate."""
    for edit in sorted(glob("tests/edits/*/*.edit") + glob("tests/edits/uncounted/*/*.edit")):
        yield edit.split("/")[-2], edit
    for edit in sorted(glob("crates/*/must-fail/*.edit")):
        yield edit.split("/")[1], edit


def main():
    os.chdir(TOP)
    unfit, number = 0, 0
    for crate, edit in all_edits():
        number += 1
        said = misfits(edit, os.path.join("crates", crate))
        if "uncounted/" in edit and "expect: BAD EDIT: an 'old:' text" in open(edit, encoding="utf8").read():
            said = [] if said else ["it fits, and is kept as one that does not"]
        unfit += bool(said)
        for words in said:
            print(f"{edit}: {words}")
    print(f"edits: {number} in all, {unfit} do not fit")
    return 1 if unfit else 0


if __name__ == "__main__":
    sys.exit(main())
