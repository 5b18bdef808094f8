#!/usr/bin/env python3
"""Brings the repository's own definitions and lemmas to snake case, once, right after port.py (docs/PORT.md).

A name that specs/ or proofs/ declares is respelled where it is declared, where a file names its module in a `use` line,
and in that file's text. Types and facts keep their capitals. In a name with dashes a dash stays between two words that
are themselves definitions (`length-put`), and any other becomes `_` (`every_fails`). Names of the library, of functions
and of struct fields of src/, and strings, stay.

usage: tools/port/respell.py [--list]
"""
import collections
import glob
import re
import sys

WORD = re.compile(r"[A-Za-z_+][A-Za-z0-9_'′⁻⁺₀-₉²³+-]*")
DECL = re.compile(
    r"^(\s*)(?:(?:unfoldable|abbrev|pub) )*([A-Za-z_][A-Za-z0-9_'′⁻⁺₀-₉²³+-]*)(?=(?: : |\s*:$|:\s))")
LIBRARY = set("""length take drop append map set get_or put sum filter below put joined starts every replicate paste
flatten reverse mul add sub div mod zero one suc min max narrowed to_bits of_bits is_nan""".split())


def camel(part):
    if not part or not part[0].islower() or not re.search(r"[a-z0-9₀-₉²³'][A-Z]|[A-Z]", part):
        return part
    part = re.sub(r"([a-z0-9₀-₉²³'])([A-Z])", r"\1_\2", part)
    return re.sub(r"([A-Z]+)([A-Z][a-z])", r"\1_\2", part).lower()


def respelled(name, words):
    parts = name.split("-")
    out = camel(parts[0])
    for before, part in zip(parts, parts[1:]):
        joint = "-" if before in words and part in words or part and part[0].isupper() or before[:1].isupper() else "_"
        out += joint + camel(part)
    return out


def module_of(path):
    m = re.match(r"crates/(\w+)/(specs|proofs)/(.+)\.antt$", path)
    return "Rattle.%s.%s.%s" % (m.group(1), m.group(2), m.group(3).replace("/", "."))


def own(path):
    """a file of declarations, and not one that answers for a function or declares modules"""
    return not re.search(r"/proofs/.+/(Proof|Answers|Invariants)\.antt$|/Lib\.antt$", path)


def declared(text):
    names, fields, record = [], [], None
    for line in text.split("\n"):
        m = re.match(r"^(\s*)(?:pub )?(record|data)\b", line)
        if m:
            record = (m.group(2), len(m.group(1)))
            continue
        if record and line.strip() and len(line) - len(line.lstrip()) <= record[1]:
            record = None
        m = DECL.match(line)
        if m and not re.match(r"\s*(?:unfoldable )?(?:pub )?use ", line):
            (fields if record and record[0] == "record" else names).append(m.group(2))
    return names, fields


def main():
    files = sorted(glob.glob("crates/*/specs/**/*.antt", recursive=True) +
                   glob.glob("crates/*/proofs/**/*.antt", recursive=True))
    texts = {f: open(f).read() for f in files}
    sources = sorted(glob.glob("crates/*/src/**/*.rt", recursive=True))
    source_words = set()
    for f in sources:
        code = re.sub(r"//.*", "", open(f).read())
        source_words |= set(re.findall(r"\b(?:fn|mod|let(?: mut)?|struct)\s+([a-z_]\w*)", code))
        source_words |= set(re.findall(r"\b([a-z_]\w*)\s*:", code))
    names, fields = {}, collections.Counter()
    for f in files:
        names[f], found = declared(texts[f])
        fields.update(found)
    words = set(LIBRARY)
    for f in files:
        if "/specs/" in f:
            words |= {n for n in names[f] if "-" not in n}
    # a lemma that would have a word's name, or that of a function of src/, gets `_lem`
    plain = {respelled(n, words) for f in files for n in names[f] if "-" not in n} | {"is_nan"}
    capitals = {respelled(n, words) for f in files for n in names[f] if n[0].islower() and re.search("[A-Z]", n)}

    def renamed(n):
        new = respelled(n, words)
        lemma = "-" in n and new != n and new in plain or not re.search("[A-Z]", n) and new in capitals
        return new + "_lem" if lemma else new

    table = {}          # module -> {old: new}
    for f in files:
        if own(f):
            table[module_of(f)] = {n: renamed(n) for n in names[f]}
    for f in files:     # what a module passes on
        for m in re.finditer(r"(?:^|\n)\s*(?:unfoldable )?pub use ([^\s{]+)\.\{([^}]*)\}", texts[f]):
            for n in m.group(2).split(","):
                n = n.strip()
                if own(f) and n in table.get(m.group(1), {}):
                    table[module_of(f)].setdefault(n, table[m.group(1)][n])
    field_table = {n: respelled(n, words) for n in fields if respelled(n, words) != n and "-" not in n or
                   ("-" in n and respelled(n, words) != n)}

    clashes = []
    for module, t in table.items():
        seen = collections.defaultdict(set)
        for old, new in t.items():
            seen[new].add(old)
        clashes += [(module, n, o) for n, o in seen.items() if len(o) > 1]

    def uses(text, start):
        """names in scope by `use` lines: {name in the text: new name}, and the names of the library"""
        own_names, others = {}, set()
        for m in re.finditer(r"(?:^|\n)\s*(?:unfoldable )?(?:pub )?" + start + r"([^\s{;]+)\.\{([^}]*)\}", text):
            module = m.group(1).rstrip(".")
            for item in m.group(2).split(","):
                item = item.strip()
                alias = re.match(r"(\S+) as (\S+)$", item)
                real, local = (alias.group(1), alias.group(2)) if alias else (item, item)
                if module in table:
                    if not alias:
                        own_names[local] = table[module].get(real, real)
                else:
                    others.add(local)
        return own_names, others

    def turn_use(m):
        module = m.group(2).rstrip(".")
        if module not in table:
            return m.group(0)
        t = table[module]
        items = [re.sub(r"^\s*(\S+)", lambda i: i.group(0).replace(i.group(1), t.get(i.group(1), i.group(1)), 1), item)
                 for item in m.group(3).split(",")]
        return m.group(1) + m.group(2) + ".{" + ",".join(items) + "}"

    def body(text, scope, whole=None):
        def one(m):
            w = m.group(0)
            before = text[m.start() - 1] if m.start() else " "
            if before == ".":
                # a field, or a member of a module that is named by an alias
                return field_table.get(w, members.get(w, w)) if w not in source_words or "-" in w or \
                    re.search("[A-Z]", w) else w
            if w in scope:
                return scope[w]
            return field_table.get(w, w) if in_record(m.start()) else w

        members = {}
        for alias in re.finditer(r"(?:^|\n)(?:ghost )?use (Rattle\.[^\s{;]+)(?: as (\S+?))?;?(?=\n)", whole or text):
            members.update(table.get(alias.group(1), {}))

        def in_record(at):
            line = text[text.rfind("\n", 0, at) + 1:]
            line = line[:line.find("\n")] if "\n" in line else line
            lead = text[:at]
            return bool(re.search(r"(record \{[^{}]*|[;{]\s*)$", lead)) or re.match(r"^\s+pub ", line) is not None or \
                re.match(r"^\s+[a-zA-Z-]+ :", line) is not None

        out, at = [], 0
        for m in WORD.finditer(text):
            out.append(text[at:m.start()])
            out.append(one(m))
            at = m.end()
        out.append(text[at:])
        return "".join(out)

    def parts(text):
        """comment lines, `use` lines and the rest are turned apart"""
        return re.split(r"(\n(?:\s*--[^\n]*|\s*(?:unfoldable )?(?:pub )?use [^\n]*))", "\n" + text)

    changed = {}
    for f in files:
        text = texts[f]
        scope, others = uses(text, "use ")
        here = table.get(module_of(f)) if own(f) else {n: renamed(n) for n in names[f]}
        if not own(f):
            here = {o: n for o, n in here.items() if "-" not in o and re.search("[A-Z]", o)}
        for old, new in here.items():
            if old not in others:
                scope[old] = new
        seen = collections.defaultdict(set)
        for old, new in scope.items():
            seen[new].add(old)
        clashes += [(f, n, o) for n, o in seen.items() if len(o) > 1 or n in others]
        out = []
        for piece in parts(text):
            if re.match(r"\n\s*--", piece):
                out.append(piece)
            elif re.match(r"\n\s*(?:unfoldable )?(?:pub )?use ", piece):
                out.append(re.sub(r"(use )([^\s{]+)\.\{([^}]*)\}", turn_use, piece))
            else:
                out.append(body(piece, scope, text))
        new = "".join(out)[1:]
        if new != text:
            changed[f] = new

    # what clauses and ghost items of the sources cite
    for f in sources:
        text = open(f).read()
        scope, _ = uses(text, "ghost use ")
        new = re.sub(r"(ghost use )([^\s{]+)\.\{([^}]*)\}", turn_use, text)

        def clause(m):
            depth, i = 0, m.end() - 1
            return m.group(0)

        out, at = [], 0
        for m in re.finditer(r"\b(?:requires|ensures|invariant|decreases|ghost(?! use))\*?(?: \w+)?:? ?\{", new):
            depth, i = 1, m.end()
            while depth:
                depth += {"{": 1, "}": -1}.get(new[i], 0)
                i += 1
            out.append(new[at:m.end()])
            out.append(body(new[m.end():i], scope, text))
            at = i
        out.append(new[at:])
        new = "".join(out)
        if new != text:
            changed[f] = new

    if "--list" in sys.argv:
        for module, t in sorted(table.items()):
            for old, new in t.items():
                if old != new:
                    print(module, old, new)
        for old, new in sorted(field_table.items()):
            print("field", old, new)
    for c in clashes:
        print("clash", *c, file=sys.stderr)
    if "--list" not in sys.argv:
        for f, text in changed.items():
            open(f, "w").write(text)
        print("respelled in %d files" % len(changed))


main()
