#!/usr/bin/env python3
"""Pages of icotable view without a browser. viewpage.py tables FOLDER makes tables; viewpage.py pages TOOL SPANS FOLDER NAME.. has the tool make their pages
and looks at each: HTML whose elements are closed and whose ids are there, nothing that is fetched, the file byte for byte, the vertices and the colours, and,
where there is node, what the page's own scripts say of every row, energy and some spans, beside icotable export and icotable_span (SPANS is spans.c)."""
import base64, csv, html.parser, io, json, math, random, re, shutil, struct, subprocess, sys

import page, verbs
from verbs import INTERPOLATED, NEAREST, REPULSIVE, SCALAR, vertices

VOID = {"meta", "link", "input", "br", "hr", "img"}
FETCHING = {"src", "href", "srcset", "action", "formaction", "data", "poster", "background", "ping", "xlink:href"}
FORBIDDEN = ("http:", "https:", "fetch(", "XMLHttpRequest", "WebSocket", "EventSource", "sendBeacon", "import(", "@import", "importScripts", "<iframe", "<object")


def tables(folder):
    """Scalars that are no numbers, infinite energies and zeros of both signs; 16 levels against an atom; and the bounds."""
    draw = random.Random(35)

    def mesh(kind, level, power, *first):
        return kind, level, [*first, *(draw.uniform(-5, 5) for _ in range(vertices(level) ** power - len(first)))]

    odd = [(REPULSIVE, 0, 0), (SCALAR, 0, math.nan), (SCALAR, 0, -math.inf), (SCALAR, 0, math.nan), mesh(INTERPOLATED, 1, 2, math.inf), (SCALAR, 0, math.inf)]
    odd += [mesh(NEAREST, 0, 2, -math.inf), mesh(INTERPOLATED, 0, 2, 0.0, -0.0), (SCALAR, 0, -0.0), mesh(NEAREST, 1, 2, 3e38, 1e-45), (SCALAR, 0, 0.0)]
    odd += [(NEAREST, 0, [-0.0] + [0.0] * 143), (SCALAR, 0, math.nan), (SCALAR, 0, 0.1), (SCALAR, 0, 1e-45)]
    verbs.made(f"{folder}/view_odd", (0.1, 0.1, math.tau / 3), (5, 3), 2, odd)
    # a name of letters that HTML takes for its own
    verbs.made(f"{folder}/view_<b>&\"'<script>", (-2.0, 0.3, math.tau), (1, 1), 1, [(SCALAR, 0, 2.5)])
    levels = [row for m in range(16) for row in (mesh(INTERPOLATED, m, 1), mesh(NEAREST, m, 1))] + [(SCALAR, 0, math.nan), (REPULSIVE, 0, 0)]
    verbs.made(f"{folder}/view_ion", (1.0, 0.3), (34,), 16, levels)
    verbs.made(f"{folder}/view_ion_most", (0.0, 1.0), (4096,), 1, [(SCALAR, 0, 1.0)] * 4096)
    verbs.made(f"{folder}/view_ion_rows", (0.0, 1.0), (4097,), 1, [(SCALAR, 0, 1.0)] * 4097)


class Page(html.parser.HTMLParser):
    """The elements of a page, what they refer to, and its scripts by their id or class."""

    def __init__(self, text):
        super().__init__()
        self.open, self.ids, self.wanted, self.wrong, self.scripts, self.title, self.style, self.heading = [], [], [], [], {}, "", "", ""
        self.feed(text)
        self.close()
        if self.open:
            self.wrong.append(f"not closed: {self.open}")

    def handle_starttag(self, tag, attributes):
        names = dict(attributes)
        self.ids += [names["id"]] if "id" in names else []
        self.wanted += [word for key in ("aria-labelledby", "aria-describedby", "for") for word in names.get(key, "").split()]
        for key in FETCHING & set(names):
            if not names[key].startswith(("data:", "#")):
                self.wrong.append(f"{tag} {key}={names[key]}")
        if tag == "script":
            self.kept = self.scripts.setdefault(names.get("id") or names.get("class") or "code", [])
        if tag not in VOID:
            self.open.append(tag)

    def handle_startendtag(self, tag, attributes):
        self.handle_starttag(tag, attributes)
        if tag not in VOID:
            self.open.pop()

    def handle_endtag(self, tag):
        if not self.open or self.open.pop() != tag:
            self.wrong.append(f"</{tag}> closes another element at line {self.getpos()[0]}")

    def handle_data(self, text):
        inside = self.open[-1] if self.open else ""
        if inside == "script":
            self.kept.append(text)
        self.title += text if inside == "title" else ""
        self.heading += text if inside == "h1" else ""
        self.style += text if inside == "style" else ""


def whole(check, name, made, text):
    """What a page is as HTML, and that it asks for nothing."""
    code = "".join(made.scripts["code"])
    for what in made.wrong:
        check(False, f"{name}: {what}")
    check(len(made.ids) == len(set(made.ids)), f"{name}: an id is there twice")
    named = re.findall(r"byId\('([^']*)'\)", code)
    check(len(named) > 30, f"{name}: the scripts name {len(named)} ids")
    check(set(made.wanted) | set(named) <= set(made.ids) | {"chosen"}, f"{name}: no id {(set(made.wanted) | set(named)) - set(made.ids)}")
    outside = text[:text.index('class="table"')] + text[text.rindex('class="table"'):].split("</script>", 1)[1]
    for word in FORBIDDEN:
        check(word not in outside, f"{name}: {word} is in the page")
    check("default-src 'none'" in text.split("</head>")[0], f"{name}: no rule that forbids to fetch")
    check("url(" not in made.style, f"{name}: the style refers to something")
    check("\n@" not in text.replace("\n@media", ""), f"{name}: a mark is left in the page")
    check(made.title.strip() == made.heading.strip() == name.rsplit("/", 1)[-1], f"{name}: its title is {made.title.strip()}")


def told(a, name, t, facts):
    """What the page is told of the table: its vertices are the format's, its colours those of the map."""
    check = a.check
    for m in range(min(len(t.levels), 6)):
        wanted = [x for v in page.Mesh(m).vertices for x in v]
        check([struct.pack("<d", x) for x in facts["vertices"][m]] == [struct.pack("<d", x) for x in wanted], f"{name}: the vertices of level {m}")
    check([len(v) // 3 for v in facts["vertices"]] == list(t.levels), f"{name}: vertices of all levels")
    svg = a.ask(0, "map", name)
    cells = re.findall(r'fill="(#[0-9a-f]{6})"><title>', svg)
    colours = [facts["colours"][kind] if kind < NEAREST else facts["levelColours"][level] for kind, level, _, _ in t.rows]
    n_r, n_omega = t.bins[0], t.n_omega
    check(n_r > 240 or cells == [colours[ri * n_omega + oi] for ri in range(n_r) for oi in range(n_omega)], f"{name}: other colours than the map's")


def queries(draw, t):
    """Ends at bins, between them, outside, the wrong way round and no numbers."""
    rmin, dr, n_r = t.grid[0], t.grid[1], t.bins[0]
    rmax = page.fused(float(n_r), dr, rmin)

    def end():
        way = draw.randrange(8)
        if way < 2:
            return rmin + draw.randrange(n_r) * dr
        if way == 2:
            return rmin + (draw.randrange(n_r) + 0.5) * dr
        return draw.choice([rmin, rmax, math.nextafter(rmin, -math.inf), math.nextafter(rmax, math.inf), math.nan, math.inf]) if way == 3 else draw.uniform(rmin, rmax)

    asked = []
    for _ in range(300):
        low, high = end(), end()
        low, high = (high, low) if low > high and draw.random() < 0.9 else (low, high)
        asked.append((low, high, draw.randrange(t.n_omega)))
    return asked + [(rmin, rmax, oi) for oi in range(t.n_omega)]


def f64(x):
    return struct.pack(">d", x).hex()


def spanned(t, low, high, oi):
    """The rule of icotable_span over the rows of a table, by docs/SPEC.md section 24."""
    rmin, dr, n_r = t.grid[0], t.grid[1], t.bins[0]
    if math.isnan(low) or math.isnan(high):
        return 18, 0, 0, f64(0.0), f64(0.0), 0
    if low > high or low < rmin or high > page.fused(float(n_r), dr, rmin):
        return 26, 0, 0, f64(0.0), f64(0.0), 0
    first, last = (min(math.trunc((r - rmin) / dr + 0.5), n_r - 1) for r in (low, high))
    held, nans = [], 0
    for kind, level, offset, scalar in (t.rows[ri * t.n_omega + oi] for ri in range(first, last + 1)):
        own = [scalar] if kind == SCALAR else [struct.pack("<f", math.inf)] if kind == REPULSIVE else t.energies[offset:offset + t.held((kind, level))]
        nans += kind == SCALAR and math.isnan(struct.unpack("<f", scalar)[0])
        held += [e for (e,) in map(struct.Struct("<f").unpack, own) if not math.isnan(e)]
    # min and max keep the first of equal ones
    return first, last, held and f64(min(held)), held and f64(max(held)), nans


def answered(a, spans, name, t, asked):
    """Of each query: the number, bins, energies and NaNs, by the library or, against an atom, by the rule itself."""
    if len(t.bins) == 1:
        return [spanned(t, *query) for query in asked]
    lines = "".join(f"{f64(low)} {f64(high)} {f64(oi * t.grid[2])}\n" for low, high, oi in asked)
    done = subprocess.run([spans, name], input=lines.encode(), stdout=subprocess.PIPE, check=True)
    split = [line.split() for line in done.stdout.decode().splitlines()]
    a.check(len(split) == len(asked), f"{name}: {len(split)} spans of {len(asked)}")
    return [(*map(int, s[:3]), s[3].lower(), s[4].lower(), int(s[5])) for s in split]


def same_span(found, wanted):
    """wanted: of the library six, of the rule five where it is accepted, whose energies are empty where there are none."""
    if len(wanted) == 5:
        wanted = 0, *wanted
    energies = [found["smallest"], found["largest"]]
    nan = [not w or math.isnan(struct.unpack(">d", bytes.fromhex(w))[0]) for w in wanted[3:5]]
    right = all(math.isnan(struct.unpack(">d", bytes.fromhex(e))[0]) if n else e == w for e, w, n in zip(energies, wanted[3:5], nan))
    return right and (found["number"], found["first"], found["last"], found["nans"]) == (*wanted[:3], wanted[5])


def same_items(items, line):
    """A slab's items on the page, and its line of icotable export."""
    found = dict(items)
    wanted = {key: value for key, value in line.items() if value != ""}
    if set(found) - {"mean"} != set(wanted):
        return False
    for key, value in wanted.items():
        shown = found[key].split(" ")[0] if key in ("omega", "level") else found[key]
        if key in ("scalar", "lowest", "highest"):
            if verbs.bits(shown) != verbs.bits(value):
                return False
        elif key in ("r", "omega"):
            if float(shown) != float(value):
                return False
        elif shown != value:
            return False
    return True


def lines_of(a, name, *more):
    return list(csv.DictReader(io.StringIO(a.ask(0, "export", "--csv", *more, name))))


def scripted(a, spans, name, out, t):
    """What the page's scripts say, by node."""
    asked = queries(random.Random(14), t)
    said = subprocess.run(["node", f"{sys.path[0]}/viewpage.js", out], input=json.dumps([[repr(low).replace("inf", "Infinity"), repr(high).replace("inf", "Infinity"), oi]
                          for low, high, oi in asked]).encode(), stdout=subprocess.PIPE, check=True).stdout
    found = json.loads(said)
    a.check(found["bytes"] == len(t.bytes) and found["rmax"] == f64(page.fused(float(t.bins[0]), t.grid[1], t.grid[0])), f"{name}: bytes or rmax")
    lines = lines_of(a, name)
    for slab, (shown, line, row) in enumerate(zip(found["slabs"], lines, t.rows, strict=True)):
        a.check(same_items(shown["items"], line), f"{name}: {shown['items']}, where export has {line}")
        held = t.energies[row[2]:row[2] + t.held(row)] if row[0] >= NEAREST else []
        a.check(base64.b64decode(shown["energies"]) == b"".join(held), f"{name}: the energies of slab {slab}")
        total = 0.0
        for (e,) in map(struct.Struct("<f").unpack, held):
            total = total + e
        a.check(not held or math.isnan(total) or shown["mean"] == f64(total / len(held)), f"{name}: the mean of slab {slab}")
    numbers = set()
    for query, shown, wanted in zip(asked, found["spans"], answered(a, spans, name, t, asked), strict=True):
        numbers.add(shown["number"])
        a.check(same_span(shown, wanted), f"{name}: the span {query} is {shown}, not {wanted}")
    a.check(numbers == {0, 18, 26}, f"{name}: the spans came to {numbers}")
    return len(lines), len(asked)


def pages(tool, spans, folder, *names):
    a, node, slabs, spanned_count = verbs.Answers(tool), shutil.which("node") is not None, 0, 0
    for name in names:
        source, out = f"{folder}/{name}", f"{folder}/page.html"
        a.ask(0, "view", source, "-o", out)
        with open(out, encoding="utf-8") as file:
            text = file.read()
        made, t = Page(text), verbs.Table(source)
        whole(a.check, source, made, text)
        facts = json.loads("".join(made.scripts["facts"]))
        parts = [base64.b64decode(part, validate=True) for part in made.scripts["table"]]
        a.check(b"".join(parts) == t.bytes, f"{name}: the page has another table")
        told(a, source, t, facts)
        if node:
            rows, spans_asked = scripted(a, spans, source, out, t)
            slabs, spanned_count = slabs + rows, spanned_count + spans_asked
        subprocess.run(["rm", out], check=True)
    print(f"{len(names)} pages of tables, {slabs} rows and {spanned_count} spans by their scripts; {a.wrong} wrong")


if __name__ == "__main__":
    if sys.argv[1] == "tables":
        tables(sys.argv[2])
    else:
        pages(*sys.argv[2:])
