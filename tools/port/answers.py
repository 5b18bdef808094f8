#!/usr/bin/env python3
"""Turns the Proof.antt of a crate's functions to Invariants.antt and Answers.antt (docs/PORT.md).

In the crate's folder `rt check --generated DIR --old-names` writes DIR/names.json, which says for each function how
goals and steps were called and how they are called now. A Proof.antt of the form `tie.close (tie.spec ..)` is turned;
others stay. Names of steps are taken by where they stand, not by their spelling.

usage: tools/port/answers.py CRATE names.json [FUNCTION..]
"""
import glob
import json
import os
import re
import sys

IDENT = r"[A-Za-z_][A-Za-z0-9_'′₀-₉²³+-]*"
BASE = {"args", "requires", "ranges", "well_formed", "well-formed", "type_inv", "type-inv", "auto", "lifetimes", "utf8"}
FIELDS = {"type-inv": "type_inv", "well-formed": "well_formed"}


def norm(s):
    return s.replace("-", "_").replace("_lem", "")


class Function:
    def __init__(self, crate, path, info):
        self.crate, self.path = crate, path
        self.info = info
        self.places = {p[0]: p for p in info["places"]}
        self.arms = dict(zip([p[0] for p in info["places"]], info["arms"]))
        self.new_place = dict(zip([p[0] for p in info["places"]], info["places_by_name"]))
        self.needs = {}
        for i, (old, new) in enumerate(info["needs"]):
            at = info["asked_at"][i][0] if i < len(info["asked_at"]) else None
            self.needs[old] = (new, at)
        self.by_norm = {norm(o): o for o in self.needs}
        self.place_norm = {norm(p): p for p in self.places}
        self.said = []
        self.kept, self.helpers, self.root, self.lent = {}, {}, None, []

    def need(self, old):
        for name in (old, re.sub(r"^(overflow|nonzero)-", "", old)):
            if name in self.needs:
                return name
            if norm(name) in self.by_norm:
                return self.by_norm[norm(name)]
        for name, (new, _) in self.needs.items():
            if norm(new) == norm(old):
                return name
        return None

    def place(self, old):
        if old in self.places:
            return old
        return self.place_norm.get(norm(old))

    def parent(self, place):
        return self.places[place][1]

    def chain(self, place):
        out = []
        while place:
            out.append(place)
            place = self.parent(place)
        return out


def split_decls(text):
    """the head's lines, and declarations: a comment or signature at column 0 begins one"""
    lines = text.split("\n")
    head, decls, i = [], [], 0
    while i < len(lines) and (lines[i].startswith("use ") or lines[i].startswith("--") or not lines[i].strip()
                              or lines[i].startswith("  ") and head and head[-1].startswith("use ")):
        head.append(lines[i])
        i += 1
    # a comment that stands right above a declaration belongs to it
    while head and head[-1].startswith("--") and i < len(lines):
        head.pop()
        i -= 1
    block = []
    for line in lines[i:]:
        starts = line and not line[0].isspace()
        if starts and block and not only_comments(block) and is_signature(line, block):
            decls.append(block)
            block = []
        block.append(line)
    if block:
        decls.append(block)
    # move trailing comments to the next declaration
    for a, b in zip(decls, decls[1:]):
        tail = []
        while a and (a[-1].startswith("--") or not a[-1].strip()):
            tail.insert(0, a.pop())
        while tail and not tail[0].strip():
            tail.pop(0)
        b[:0] = tail
    return head, [d for d in decls if any(x.strip() for x in d)]


def only_comments(block):
    return all(x.startswith("--") or not x.strip() for x in block)


def is_signature(line, block):
    if line.startswith("--"):
        return True
    m = re.match(r"(?:(?:abbrev|unfoldable|pub) )*(%s) :" % IDENT, line)
    if m:
        return True
    return bool(re.match(r"(module|data|record|pub data|pub record)\b", line))


def name_of(block):
    for line in block:
        m = re.match(r"(?:(?:abbrev|unfoldable|pub) )*(%s) :" % IDENT, line)
        if m:
            return m.group(1)
    return None


def turn_paths(fn, text, scope, root):
    """paths from variables at known places: `c.before.before.step.x` is `c.step.x` now, since a place's record has the
    steps before it too; root is the name of the goal or place whose record the clause takes"""
    text = spread(text)
    first = next(iter(scope), None)
    fn.root = scope[first] if first else None
    text = re.sub(r"\blet (%s) = (%s)((?:\.before(?![\w-]))*) in" % (IDENT, IDENT), lambda m: alias(fn, m, scope), text)
    helpers = sorted((h for h in fn.helpers if h != root), key=len, reverse=True)
    if helpers and first:
        pattern = r"(?<![\w.'-])(%s) (?:(%s)((?:\.before(?![\w-]))*)(?![\w.'-])|\((%s)((?:\.before(?![\w-]))*)\))" % (
            "|".join(map(re.escape, helpers)), IDENT, IDENT)

        def call(m):
            var = m.group(2) or m.group(4)
            if var not in scope:
                return m.group(0)
            wanted = fn.helpers[m.group(1)]
            fn.kept[fn.new_place[wanted]] = wanted
            if wanted == fn.root_place:
                return "%s %s" % (m.group(1), first)
            return "%s (goal.at.%s %s).%s" % (m.group(1), root, first, fn.new_place[wanted])

        fn.root_place = scope[first]
        text = re.sub(pattern, call, text)

    def path(m):
        var, befores, rest = m.group(1), m.group(2), [x for x in m.group(3).split(".") if x]
        if var not in scope or not rest:
            return m.group(0)
        if m.start() >= 8 and text[:m.start()].endswith("goal.at."):
            return m.group(0)
        at = scope[var]
        for _ in range(befores.count(".before")):
            at = fn.parent(at) or at if at else None
        return ".".join([first] + step(fn, at, rest, m.group(0)))

    text = re.sub(r"(?<![\w.'-])(%s)((?:\.before(?![\w-]))*)((?:\.(?:%s|\d+))*)(?![\w'-])" % (
        IDENT.replace("+-]", "-]"), IDENT), path, text)
    # names of places that nothing cites any more
    again = True
    while again:
        again = False
        for name in [n for n in scope if n != first]:
            line = re.search(r"\blet %s = %s(?:\.before)* in[ \n]*" % (re.escape(name), IDENT), text)
            if line and not re.search(r"(?<![\w.'-])%s(?![\w'-])" % re.escape(name), text[:line.start()] + text[line.end():]):
                text = text[:line.start()] + text[line.end():]
                again = True
    return text


DEEPER = {"type-inv": "type_inv", "well-formed": "well_formed"}


def step(fn, at, rest, whole):
    """a path from the record of a place, as it is written now"""
    field, deeper = rest[0], [DEEPER.get(x, x) for x in rest[1:]]
    if field in BASE:
        return [FIELDS.get(field, field)] + deeper
    whole_chain = fn.chain(fn.root) if fn.root else []
    for fits_name in (exact, same):
        for chain in (fn.chain(at), whole_chain):
            for below in chain:
                own, arm = fn.places[below][2], fn.arms.get(below)
                if not fits_name(field, own[0]):
                    continue
                if arm:
                    fits = [(len(p), new, p) for new, old, p in arm[2] if same(field, old) and p == rest[1:1 + len(p)]]
                    if fits:
                        n, new, p = max(fits)
                        return [arm[0], new] + deeper[n:]
                return [own[1]] + deeper
    own = fn.places[at][2]
    fn.said.append("%s: step %r is %r at %s" % (whole, field, own[0], at))
    return [own[1]] + deeper


def exact(field, own):
    return norm(field) == norm(own)


def same(field, own):
    return norm(field) == norm(own) or norm(re.sub(r"\d+$", "", field)) == norm(re.sub(r"\d+$", "", own))


def named(text):
    """clauses of the library that have a name now, and fields of Rattle's own"""
    text = re.sub(r"\.type-inv\b", ".type_inv", re.sub(r"\.well-formed\b", ".well_formed", text))
    # a test of `!x` says of x what it says
    text = re.sub(r"\bnot-(?:true|false) (?:_|[\w.'-]+|\((?:[^()]|\([^()]*\))*\)) (c\.[\w.-]*-not-[\w.-]+)", r"\1", text)
    return re.sub(r"\.(wrapping_\w+(?:-\w+)?)\.ensures(?![.\w])", r".\1.ensures.value", text)


def spread(text):
    """`let g = c.x.given in .. g.0` has its path written out"""
    pattern = r"let (%s) = ((?:%s)(?:\.(?:%s))*\.given) in[ \n]*" % (IDENT, IDENT.replace("+-]", "-]"), IDENT)
    m = re.search(pattern, text)
    while m:
        after = re.sub(r"(?<![\w.'-])%s(?=\.)" % re.escape(m.group(1)), lambda _: m.group(2), text[m.end():])
        if re.search(r"(?<![\w.'-])%s(?![\w.'-])" % re.escape(m.group(1)), after):
            return text
        text = text[:m.start()] + after
        m = re.search(pattern, text)
    return text


def autos(fn, text):
    """what is known by itself after a call goes by the parameter's name"""
    callee = {p[2][1]: p[3] for p in fn.info["places"] if p[3]}
    names = {}

    def one(m):
        step = names.get(m.group(1), m.group(1))
        params = fn.info["params"].get(callee.get(step), [])
        index = m.group(2).count(".1")
        return "%s.auto.%s" % (m.group(1), params[index]) if index < len(params) else m.group(0)

    out = []
    for part in re.split(r"(\n\n)", text):
        names = dict(re.findall(r"\blet (%s) = c\.(%s) in" % (IDENT, IDENT), part))
        out.append(re.sub(r"(?<![\w'-])(%s)\.auto((?:\.1)*)\.0(?![\w.])" % IDENT, one, part))
    return "".join(out)


def source_words(crate):
    out = set()
    for f in glob.glob("crates/%s/src/**/*.rt" % crate, recursive=True):
        out |= {w for w in re.findall(r"[a-z]\w*", open(f).read()) if "_" in w}
    return out


def of_source(text, words):
    """names of the sources keep their spelling"""
    return re.sub(r"\.([a-z]\w*(?:-[a-z0-9]\w*)+)(?![\w'-])",
                  lambda m: "." + m.group(1).replace("-", "_") if m.group(1).replace("-", "_") in words else m.group(0), text)


def alias(fn, m, scope):
    name, var, befores = m.group(1), m.group(2), m.group(3)
    if var not in scope:
        return m.group(0)
    at = scope[var]
    for _ in range(befores.count(".before")):
        at = fn.parent(at) or at
    scope[name] = at
    return m.group(0)


def turn(crate, folder, info):
    proof = os.path.join(folder, "Proof.antt")
    text = open(proof).read()
    if "tie.close" not in text:
        return "by hand"
    rel = os.path.relpath(folder, "crates/%s/proofs" % crate).replace("/", ".")
    fn = Function(crate, rel, info)
    head, decls = split_decls(text)
    uses = [h for h in head if h.startswith("use ") or h.startswith("  ")]
    comments = [h for h in head if h.startswith("--")]
    uses = [u for u in uses if not re.search(r"\.(Statement\.\{statement\}|Tie as tie)$", u)]
    stem = "Rattle.%s.proofs.%s" % (crate, rel)

    loops = {norm(o): (o, n, vs, fn.info["changed"][i] if i < len(fn.info["changed"]) else [])
             for i, ((o, n), vs) in enumerate(fn.info["loops"])}
    invariants, answers, renamed = [], [], {}
    for d in decls:
        m = re.search(r"^(?:abbrev )?(?:pub )?(%s) :\s*(?:\(%s : )?tie\.(%s)" % (IDENT, IDENT, IDENT), "\n".join(d), re.M)
        if m and re.match("(Need|invariant|decreases)-", m.group(2)):
            m = None
        if m and fn.place(m.group(2)):
            fn.helpers[m.group(1)] = fn.place(m.group(2))
    for d in decls:
        body = "\n".join(d)
        name = name_of(d)
        if re.search(r"tie\.close\b", body):
            answers += inline(fn, body, {name_of(x) for x in decls}, decls)
            continue
        m = re.search(r"^abbrev (?:pub )?(%s) : tie\.(invariant|decreases)-(%s)" % (IDENT, IDENT), body, re.M)
        if m:
            invariants.append(invariant(fn, m, body, loops))
            continue
        m = re.search(r"^(?:pub )?(%s) : tie\.Need-(%s)(.*)$" % (IDENT, IDENT), body, re.M)
        if m:
            old = fn.need(m.group(2))
            if not old:
                fn.said.append("no goal %s" % m.group(2))
                answers.append("-- LEFT: no goal %s\n%s" % (m.group(2), "\n".join("-- " + x for x in body.split("\n"))))
                continue
            new, at = fn.needs[old]
            if m.group(1) != new:
                renamed[m.group(1)] = new
            answers.append(answer(fn, m, body, new, at, old))
            continue
        answers.append(helper(fn, body, stem))
    answers = [cross(a, renamed) for a in answers]
    return fn, comments, uses, stem, *shared(fn, stem, invariants, answers)


def shared(fn, stem, invariants, answers):
    """what an invariant cites goes with it; the answers import it"""
    moved = True
    while moved:
        moved = False
        for a in answers:
            name = name_of(a.split("\n"))
            if name and "goal." not in a and any(re.search(r"(?<![\w.'-])%s(?![\w'-])" % re.escape(name), i)
                                                 for i in invariants):
                answers.remove(a)
                a = re.sub(r"^(abbrev )?(?:pub )?(?=%s :)" % re.escape(name), r"\1pub ", a, flags=re.M)
                invariants.insert(0, a)
                fn.lent.append(name)
                moved = True
                break
    used = [n for n in fn.lent if any(re.search(r"(?<![\w.'-])%s(?![\w'-])" % re.escape(n), a) for a in answers)]
    fn.lent = used
    return invariants, answers


def arguments(text):
    """what stands after `tie.spec`, part by part"""
    out, depth, part = [], 0, ""
    for ch in text:
        if ch in "([{":
            depth += 1
        if ch in ")]}":
            depth -= 1
            if depth < 0:
                break
        if ch.isspace() and depth == 0:
            if part:
                out.append(part)
            part = ""
        else:
            part += ch
    return out + ([part] if part else [])


def inline(fn, body, local, decls):
    """goals that were answered in the call of `tie.spec` itself, or by a lemma of another name"""
    m = re.search(r"tie\.spec\b(.*)", body, re.S)
    if not m:
        return []
    parts = arguments(m.group(1))
    text = "\n".join("\n".join(d) for d in decls)
    parts = [p for p in parts if not re.match(r"(invariant|decreases)-", p) and
             not re.search(r"^abbrev (?:pub )?%s : tie\.(invariant|decreases)" % re.escape(p), text, re.M)]
    needs = fn.info["needs"]
    if len(parts) != len(needs):
        left = [p for p in parts if "search rules" not in p and
                not re.search(r"^(?:pub )?%s : tie\.Need-" % re.escape(p), text, re.M)]
        if left:
            fn.said.append("%d arguments, %d goals; left: %s" % (len(parts), len(needs), left))
        return []
    out = []
    for part, (old, new), (at, _) in zip(parts, needs, fn.info["asked_at"]):
        if re.match(r"\(λ (?:c|_)(?: κs| _)*\. search rules\)$", part):
            continue
        if re.search(r"^(?:pub )?%s : tie\.Need-" % re.escape(part), text, re.M):
            continue
        m = re.match(r"\(λ (\S+?)(?: κs| _)*\. (.*)\)$", part, re.S)
        if m:
            var, term = m.groups()
        else:
            var, term = "c", part + " c"
        term = turn_paths(fn, term, {var: at}, new)
        out.append("pub %s : goal.%s\n%s %s = %s" % (new, new, new, var, term))
    return out


def cross(text, renamed):
    """an answer that cites another one of the same file"""
    head, lines = [], text.split("\n")
    out = []
    for line in lines:
        lead = re.match(r"(?:pub )?%s(?: :|(?: [^\s=]+)* =)" % IDENT, line)
        start = lead.end() if lead else 0
        out.append(line[:start] + re.sub(r"(?<![\w.'-])%s" % IDENT.replace("+-]", "-]"),
                                         lambda m: renamed.get(m.group(0), m.group(0)), line[start:]))
    return "\n".join(out)


def rest_of(body, m):
    return body[:m.start()], body[m.end():]


def answer(fn, m, body, new, at, old):
    before, after = rest_of(body, m)
    local = m.group(1)
    lines = after.strip("\n").split("\n")
    out = []
    for line in lines:
        out.append(re.sub(r"^%s(?=\s|$)" % re.escape(local), new, line))
    scope = {}
    clause = re.search(r"^%s((?: \S+)*?) =" % re.escape(new), "\n".join(out), re.M)
    if clause:
        args = clause.group(1).split()
        if args:
            scope[args[0]] = at
            # the other arguments that an answer takes came with the kinds of the callee
    text = "\n".join(out)
    text = re.sub(r"^%s (\S+) κs =" % re.escape(new), r"%s \1 =" % new, text, flags=re.M)
    text = turn_paths(fn, text, scope, new)
    text = re.sub(r"(?<![\w.-])%s(?= )" % re.escape(local), new, text) if local != new and "-" in local else text
    return "%spub %s : goal.%s\n%s" % (before, new, new, text)


def helper(fn, body, stem):
    scope = {}
    for m in re.finditer(r"\((%s) : tie\.(%s)\)" % (IDENT, IDENT), body):
        p = fn.place(m.group(2))
        if p:
            scope[m.group(1)] = p
    def place(m):
        p = fn.place(m.group(1))
        if p:
            fn.kept[fn.new_place[p]] = p
        return fn.new_place[p] if p else m.group(0)
    # the name of the variable in the clause may differ
    sig = re.search(r"^(?:abbrev )?(?:pub )?(%s) :\s*(?:\((%s) : )?tie\.(%s)" % (IDENT, IDENT, IDENT), body, re.M)
    if sig and fn.place(sig.group(3)):
        clause = re.search(r"^%s (%s)" % (re.escape(sig.group(1)), IDENT), body[sig.end():], re.M)
        if clause:
            scope[clause.group(1)] = fn.place(sig.group(3))
    variables = sorted(scope, key=lambda v: not re.search(r"^%s %s\b" % (re.escape(name_of(body.split("\n")) or "?"), re.escape(v)),
                                                            body, re.M))
    if variables:
        at = fn.new_place[scope[variables[0]]]
        body = turn_paths(fn, body, {v: scope[v] for v in variables}, at)
    body = re.sub(r"tie\.(%s)" % IDENT, place, body)
    body = re.sub(r"(?: invariant-[\w-]+| decreases-[\w-]+)+(?=\)| →)", "", body)
    return body


def bound(text, table):
    """where a name of the table is bound by a binder in the text: name, from, to"""
    out = []
    for m in re.finditer(r"λ ((?:\(?[^().]*\)? ?)+?)\.|\((%s(?: %s)*) :[^()]*\) →|\blet (%s)\b" % (IDENT, IDENT, IDENT), text):
        for name in re.findall(IDENT, (m.group(1) or m.group(2) or m.group(3) or "").split(" : ")[0]):
            if name in table:
                depth, j = 0, m.end()
                while j < len(text) and depth >= 0:
                    depth += {"(": 1, "{": 1, "[": 1, ")": -1, "}": -1, "]": -1}.get(text[j], 0)
                    j += 1
                out.append((name, m.start(), j))
    return out


def invariant(fn, m, body, loops):
    before, after = rest_of(body, m)
    local, kind, loop = m.group(1), m.group(2), m.group(3)
    key = norm(loop)
    if key not in loops:
        fn.said.append("no loop %s" % loop)
        return "-- LEFT: no loop %s\n" % loop + body
    old, new, variables, changed = loops[key]
    clause = re.search(r"^%s((?: [^\s=]+)*) =" % re.escape(local), after, re.M)
    if not clause:
        fn.said.append("no clause of %s" % local)
        return body
    args = clause.group(1).split()
    target = []
    for i, v in enumerate(variables):
        target.append("l.initial.%s" % v if i < len(changed) and changed[i] else "l.%s" % v)
    for i, v in enumerate(variables):
        if i < len(changed) and changed[i]:
            target.append("l.%s" % v)
    if len(args) != len(target):
        fn.said.append("%s takes %d, and the loop has %d: %s / %s" % (local, len(args), len(target), args, target))
    text = after[clause.end():]
    table = dict(zip(args, target))
    table.pop("_", None)

    spans = bound(text, table)

    def word(mm):
        name = mm.group(0)
        if any(n == name and i <= mm.start() < j for n, i, j in spans):
            return name
        return table.get(name, name)

    text = re.sub(r"(?<![\w.'′₀-₉-])%s" % IDENT.replace("+-]", "-]"), word, text)
    new_name = "%s-%s" % (kind, new)
    pre = after[:clause.start()].strip("\n")
    return "%sabbrev pub %s : goal.%s\n%s%s l =%s" % (before, new_name, new_name, pre + "\n" if pre else "", new_name,
                                                     text.rstrip("\n"))


def main():
    crate, names = sys.argv[1], json.load(open(sys.argv[2]))
    only = sys.argv[3:]
    words = source_words(crate)
    for proof in sorted(glob.glob("crates/%s/proofs/**/Proof.antt" % crate, recursive=True)):
        folder = os.path.dirname(proof)
        rel = os.path.relpath(folder, "crates/%s/proofs" % crate)
        if only and rel not in only and os.path.basename(rel) not in only:
            continue
        key = "Rattle-%s-proofs.%s.Lts" % (crate, rel.replace("/", "."))
        if key not in names:
            print("%s: no names" % rel)
            continue
        made = turn(crate, folder, names[key])
        if made == "by hand":
            print("%s: by hand" % rel)
            continue
        fn, comments, uses, stem, invariants, answers = made
        for s in fn.said:
            print("%s: %s" % (rel, s))
        used = [u for u in uses]
        if invariants:
            with open(os.path.join(folder, "Invariants.antt"), "w") as out:
                out.write("\n".join(imports(used, invariants) + ["use %s.Given as goal" % stem, ""]) + "\n")
                out.write("\n\n".join(i.strip("\n") for i in invariants) + "\n")
        if answers:
            text = autos(fn, of_source(named("\n\n".join(a.strip("\n") for a in answers)), words))
            with open(os.path.join(folder, "Answers.antt"), "w") as out:
                more = ["use %s.Goals.{%s}" % (stem, ", ".join(fn.kept))] if fn.kept else []
                if fn.lent:
                    more.insert(0, "use %s.Invariants.{%s}" % (stem, ", ".join(fn.lent)))
                out.write("\n".join(imports(used, answers) + ["use %s.Goals as goal" % stem] + more + [""]) + "\n")
                out.write(text + "\n")
        os.remove(proof)


def imports(uses, blocks):
    """the `use` lines, cut down to the names that the blocks have"""
    text = "\n".join(blocks)
    out = []
    for u in uses:
        m = re.match(r"use ([^\s{]+)\.\{([^}]*)\}$", u)
        if not m:
            if not u.startswith("use ") or re.search(r"\b%s\b" % re.escape(u.split()[-1].split(".")[-1]), text):
                out.append(u)
            continue
        kept = []
        for item in m.group(2).split(","):
            item = item.strip()
            local = item.split(" as ")[-1]
            bare = local.strip("◌")
            if "◌" in local:
                words = [w for w in local.split("◌") if w]
                if all(w in text for w in words):
                    kept.append(item)
            elif re.search(r"(?<![\w'-])%s(?![\w'-])" % re.escape(bare), text):
                kept.append(item)
        if kept:
            out.append("use %s.{%s}" % (m.group(1), ", ".join(kept)))
    return out


main()
