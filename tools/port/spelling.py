#!/usr/bin/env python3
"""What the port changed besides spelling: sets the definitions of specs/, the types of the laws of proofs/, the declared
types, and the signatures and clauses of all functions beside those of another checkout, word by word.

usage: tools/port/spelling.py OLD [--all]

OLD is a checkout of the last commit that landed before the port. Brackets, dashes, underscores and capitals are left out
of account, and so are the forms that the newer kit writes otherwise: `λ r. ⌜ .. r .. ⌝` (`result`), `now (x .entry)` and
`now (x .exit)` (`x.old` or `x.now`, and `x.new`), and projections. What is left is printed by the words that stand for
others, with how often and where (--all: every place). A declaration that is in one checkout alone is printed by name;
status 1 if there is one, or a signature or a declared type that differs."""
import collections
import difflib
import glob
import os
import re
import sys

TOP = os.path.dirname(os.path.dirname(os.path.dirname(os.path.abspath(__file__))))
WORDS = re.compile(r"«[^»]*»|[^\s(){}.;,@\"«»]+|[{};,]|\.(?=[^\s(){}.;,])|\.")
MARKS = re.compile(r"^(\s*)(?:(?:unfoldable|abbrev|pub|axiom) )*")
NAME = re.compile(r"^(?:data |record )?(«[^»]*»|[^\s(){}.;,@\"«»]+)")
UNREAD = {"use", "mod", "unfolding", "infix", "infixl", "infixr", "ruleset", "open"}
FUNCTION = re.compile(r'^ *(?:pub(?:\([a-z]+\))? )?(?:const )?(?:extern "C" )?fn (\w+)[^(\n]*\(', re.M)
TYPE = re.compile(r"^(?:pub(?:\([a-z]+\))? )?(struct|enum|const|type) (\w+)([^;{]*(?:\{[^}]*\}|;))", re.M)
CLAUSE = re.compile(r"\s*(requires|ensures|decreases)(?: \w+)?\s*\{")
RESULT = re.compile(r"\s*->\s*([^{]*?)(?=\s*(?:requires\b|ensures\b|decreases\b|\{))")
CLOSERS = {"(": ")", "{": "}"}
MOMENTS = {".entry": ".then", ".exit": ".new", ".old": ".then", ".now": ".then"}


def plain(word):
    """A name without what the spelling of a kit decides."""
    bare = word.strip("«»").replace("′", "'").replace("◌", "_")
    return bare if not re.search(r"\w\w|\.\w", bare) else re.sub(r"[-_]", "", bare).lower()


def words_of(text):
    """The words of a text, brackets left out; a projection is one word with its dot."""
    found, dot = [], False
    for item in WORDS.finditer(text):
        word = item.group()
        if word == "." and text[item.end():item.end() + 1].strip(" (){}.;,\n") != "":
            dot = True
            continue
        found.append(MOMENTS.get("." + word, "." + plain(word)) if dot else plain(word))
        dot = False
    return found


def chunks(text):
    """The declarations of an antt file, each with its lines, without marks and comments."""
    found = []
    for line in re.sub(r"(?m)(?<!\S)--.*$", "", text).split("\n"):
        bare = MARKS.sub(r"\1", line)
        if line[:1].strip() and line[0] not in ")}":
            found.append([bare])
        elif line.strip() and found:
            found[-1].append(bare)
    return found


def declared(path, whole):
    """The words of each declaration of a file; of a law those of its type alone."""
    found = collections.defaultdict(list)
    for chunk in chunks(read(path)):
        name = NAME.match(chunk[0])
        if name and chunk[0].split()[0] not in UNREAD:
            found[plain(name.group(1))].append(words_of("\n".join(chunk)))
    return found if whole else {name: some[:1] for name, some in found.items()}


def read(path):
    with open(path, encoding="utf8") as file:
        return file.read()


def closing(text, start):
    depth = 0
    for at in range(start, len(text)):
        depth += (text[at] == text[start]) - (text[at] == CLOSERS[text[start]])
        if depth == 0:
            return at
    raise ValueError(text[start:start + 60])


def clause_words(text):
    """The words of a clause, `result` in the place of the older kit's bound name."""
    old = re.match(r"\s*λ (\S+?)\s*\.\s*⌜(.*)⌝\s*$", text, re.S) or re.match(r"\s*()⌜(.*)⌝\s*$", text, re.S)
    if not old:
        return words_of(text)
    found = words_of(old.group(2))
    labels = {at for at, word in enumerate(found[:-1]) if found[at + 1] == "=" and found[at - 1] in ("{", ";")}
    return ["result" if word == old.group(1) and at not in labels else word for at, word in enumerate(found)]


def functions(path):
    """Signature, result and clauses of each function, and the declared types."""
    text, found = re.sub(r"//[^\n]*", "", read(path)), {}
    for item in FUNCTION.finditer(text):
        end = closing(text, item.end() - 1) + 1
        signature, clauses = text[item.end() - 1:end], []
        result = RESULT.match(text, end)
        signature, end = signature + (result.group(1) if result else ""), result.end() if result else end
        while CLAUSE.match(text, end):
            clause = CLAUSE.match(text, end)
            end = closing(text, clause.end() - 1) + 1
            if clause.group(1) != "decreases":
                clauses.append([clause.group(1)] + clause_words(text[clause.end():end - 1]))
        found["fn " + item.group(1)] = squeezed(signature), clauses
    for kind, name, body in TYPE.findall(text):
        found[f"{kind} {name}"] = squeezed(body), []
    return found


def squeezed(text):
    return re.sub(r",([)}])", r"\1", re.sub(r"\s+", "", text))


class Report:
    """What differs: words that stand for others, by place, and declarations that have no other."""

    def __init__(self):
        self.words, self.wrong, self.compared = collections.defaultdict(list), [], 0

    def compare(self, place, old, new):
        self.compared += 1
        old, new = ([word for word in some if word != "now"] for some in (old, new))
        new = self.moments(old, new)
        for kind, i, j, k, n in difflib.SequenceMatcher(None, old, new, autojunk=False).get_opcodes():
            if kind != "equal":
                self.words[" ".join(old[i:j]), " ".join(new[k:n])].append(place)

    @staticmethod
    def moments(old, new):
        """A slice that was lent to be read had no moment."""
        return new if ".then" in old else [word for word in new if word != ".then"]

    def pair(self, place, old, new, law=False):
        for name in sorted(old.keys() | new.keys()):
            other = name if name in new else name + "lem"
            if name in old and other not in new:
                self.wrong.append(f"{place}: {name} is gone")
            elif name in old and len(old[name]) != len(new[other]) and not law:
                self.wrong.append(f"{place}: {name} has {len(new[other])} clauses for {len(old[name])}")
            for one, two in zip(old.get(name, []), new.get(other, [])):
                self.compare(f"{place} {name}", one, two)

    def signed(self, place, old, new):
        for name, (signature, clauses) in old.items():
            if name not in new:
                self.wrong.append(f"{place}: {name} is gone")
                continue
            if signature != new[name][0]:
                self.wrong.append(f"{place}: {name}: {signature} is now {new[name][0]}")
            if [one[0] for one in clauses] != [one[0] for one in new[name][1]]:
                self.wrong.append(f"{place}: {name} has other clauses")
            for one, two in zip(clauses, new[name][1]):
                self.compare(f"{place} {name}", one, two)


def main(words):
    old, report = words[0], Report()
    for path in sorted(glob.glob("crates/*/specs/*.antt") + glob.glob("crates/*/proofs/*.antt")):
        if os.path.exists(os.path.join(old, path)):
            law = "/proofs/" in path
            report.pair(path, declared(os.path.join(old, path), not law), declared(path, not law), law)
    for path in sorted(glob.glob(os.path.join(old, "crates/*/src/*.rt"))):
        place = os.path.relpath(path, old)
        report.signed(place, functions(path), functions(place) if os.path.exists(place) else {})
    print(f"{report.compared} declarations and clauses are set beside the old ones")
    for (one, two), places in sorted(report.words.items(), key=lambda found: (-len(found[1]), found[0])):
        shown = places if "--all" in words else places[:3]
        print(f"{len(places)} times: {one or '-'} => {two or '-'} ({'; '.join(shown)}{' ..' if places[len(shown):] else ''})")
    print("\n".join(report.wrong) or "no declaration is gone, no signature and no declared type differs")
    return 1 if report.wrong else 0


if __name__ == "__main__":
    if len(sys.argv) < 2:
        sys.exit(__doc__)
    sys.argv[1] = os.path.abspath(sys.argv[1])
    os.chdir(TOP)
    sys.exit(main(sys.argv[1:]))
