"""The record of edits, tests/edits/RECORD: what was said of each when all were last tried.

An edit's verdict can change only if its crate, a crate below it, the kit, the edit or the rule that judges (judge.py)
changes. A line holds for each edit, between tabs: its label, a sum of all these, the kit's id, and the place and words
of its first error or why it does not count. Written by `tests/edits/run --all` alone."""
import hashlib
import os

import crates as repository

PLACE = os.path.join("tests", "edits", "RECORD")
HEAD = "# written by tests/edits/run --all: label, sum, kit, place and words"
DRAWN = 8


def digest(path):
    with open(path, "rb") as file:
        return hashlib.sha256(file.read()).hexdigest()


class Sums:
    """What the verdict of an edit rests on, as one number."""

    def __init__(self, needs):
        self.needs, self.kit, self.crates = needs, repository.kit_id(), {}
        self.rule = digest(os.path.join("tests", "edits", "judge.py"))

    def of(self, crate, edit):
        if crate not in self.crates:
            self.crates[crate] = repository.sum_of(self.needs, crate, self.kit)
        return hashlib.sha256(f"{self.crates[crate]} {self.rule} {digest(edit)}".encode()).hexdigest()


def read():
    """The sum and the words that are recorded of each label."""
    if not os.path.isfile(PLACE):
        return {}
    with open(PLACE, encoding="utf8") as lines:
        fields = [line.rstrip("\n").split("\t", 3) for line in lines if not line.startswith("#")]
    return {label: (total, words) for label, total, _, words in fields}


def write(entries, kit):
    """The whole record: label, sum and words of each edit."""
    with open(PLACE + ".new", "w", encoding="utf8") as file:
        print(HEAD, file=file)
        for label, total, words in sorted(entries):
            print(label, total, kit, words, sep="\t", file=file)
    os.replace(PLACE + ".new", PLACE)


def drawn(label, commit):
    """Whether an edit is tried again for this commit though its verdict is recorded: one in eight is."""
    return int(hashlib.sha256(f"{commit} {label}".encode()).hexdigest(), 16) % DRAWN == 0
