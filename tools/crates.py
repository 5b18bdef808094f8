"""What crates.txt says, and sums of what a crate is proved from. Read by hosts/c/prove, tools/layers and tests/edits/run."""
import hashlib
import os
import subprocess

PROVED_FROM = ("src", "specs", "proofs")


def line_of(text):
    """A line of crates.txt: the crate's name, whether it is a static library, and what it depends on; else None."""
    head, colon, rest = text.split("#")[0].partition(":")
    name, *words = head.split() or [""]
    return (name, "staticlib" in words, rest.split()) if colon else None


def listed():
    """What each crate of crates.txt depends on, the kit's libraries among it."""
    with open("crates.txt", encoding="utf8") as lines:
        found = [line_of(line) for line in lines]
    return {name: needs for name, _, needs in filter(None, found)}


def reached(needs, name):
    """The crate and all crates of the repository below it."""
    found, todo = set(), [name]
    while todo:
        crate = todo.pop()
        if crate in needs and crate not in found:
            found.add(crate)
            todo += needs[crate]
    return found


def kit_id():
    """The kit's one line about itself."""
    return subprocess.run(["rt", "version"], stdout=subprocess.PIPE, text=True, check=True).stdout.strip()


def files_of(crate):
    """The files that a crate is proved from."""
    places = [os.path.join("crates", crate, part) for part in PROVED_FROM]
    return sorted(os.path.join(folder, name) for place in places for folder, _, names in os.walk(place) for name in names)


def sum_of(needs, name, kit):
    """A hash of the kit's id, of the crate and of all below it: their dependencies and their files."""
    total = hashlib.sha256(f"{kit}\n".encode())
    for crate in sorted(reached(needs, name)):
        total.update(f"{crate}: {' '.join(needs[crate])}\n".encode())
        for path in files_of(crate):
            with open(path, "rb") as file:
                total.update(f"{path} {hashlib.sha256(file.read()).hexdigest()}\n".encode())
    return total.hexdigest()
