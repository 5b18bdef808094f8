#!/usr/bin/env python3
"""look.py TOOL SPANS FOLDER: pages of FOLDER/table.icotable and FOLDER/ion.icotable in a headless Chromium, with real clicks and keys. What the page then
shows has to be what icotable export and icotable_span (SPANS is tests/hosts/spans.c) say. Pictures go to FOLDER; a person has to look at them."""
import csv, io, math, os, pathlib, re, struct, sys, tempfile

sys.path.insert(0, f"{sys.path[0]}/../hosts")
import page, verbs, viewpage
from chromium import Browser

NUMBER = r"energy (\S+)\.$"


class Look:
    """A table's page in a browser, beside the table."""

    def __init__(self, browser, tool, spans, folder, name):
        self.browser, self.spans, self.folder, self.name, self.source = browser, spans, folder, name, f"{folder}/{name}.icotable"
        self.a, self.t, self.shown = verbs.Answers(tool), verbs.Table(self.source), 0
        self.page = f"{folder}/{name}.html"
        pathlib.Path(self.page).unlink(missing_ok=True)
        self.a.ask(0, "view", self.source, "-o", self.page)
        self.lines = viewpage.lines_of(self.a, self.source)
        self.check, self.atom = self.a.check, len(self.t.bins) == 1

    def open(self, behind=""):
        self.browser.open(pathlib.Path(self.page).resolve().as_uri() + behind)

    def ask(self, expression):
        return self.browser.ask(expression)

    def text(self, which):
        return self.ask(f"document.getElementById({which!r}).textContent")

    def box(self, selector):
        """Brought into sight: left, top, width, height."""
        return self.ask(f"(() => {{ const e = document.querySelector({selector!r}); e.scrollIntoView({{block: 'center'}}); const b = e.getBoundingClientRect();"
                        " return [b.left, b.top, b.width, b.height]; })()")

    def click(self, selector, x=0.5, y=0.5):
        left, top, width, height = self.box(selector)
        self.browser.click(left + x * width, top + y * height)

    def list(self, which):
        return self.ask(f"[...document.querySelectorAll('#{which} dd')].map(e => [e.dataset.name, e.textContent])")

    def slab_is(self, ri, oi):
        """The row that is shown is that of the slab."""
        line, items = self.lines[ri * self.t.n_omega + oi], self.list("row")
        self.check(viewpage.same_items(items, line), f"{self.name} ({ri}, {oi}): the page shows {items}, export has {line}")
        self.check(self.text("slab-words").startswith(f"Slab {ri}:" if self.atom else f"Slab ({ri}, {oi}):"), f"{self.name}: {self.text('slab-words')}")
        mesh = line["level"] != ""
        self.check(self.ask("[energies.hidden, document.getElementById('no-energies').hidden]".replace("energies.", "document.getElementById('energies').")) ==
                   [not mesh, mesh], f"{self.name} ({ri}, {oi}): the energies are shown or not")
        self.shown += 1

    def click_slab(self, ri, oi):
        self.click(f'rect[data-slab="{ri},{oi}"]')
        self.slab_is(ri, oi)

    def energies(self, ri, oi):
        """By icotable export."""
        lines = viewpage.lines_of(self.a, self.source, "--energies", "--slice", str(ri))
        return {(int(line["a"]), int(line.get("b", 0))): line["energy"] for line in lines if self.atom or int(line["oi"]) == oi}

    def pair_is(self, held, a, b):
        shown = re.search(NUMBER, self.text("pair-words"))
        values = [int(self.ask(f"document.getElementById('{name}').value")) for name in "ab"]
        self.check(values[0] == a and (self.atom or values[1] == b), f"{self.name}: vertices {values}, not {a}, {b}")
        self.check(shown is not None and verbs.bits(shown[1]) == verbs.bits(held[a, 0 if self.atom else b]), f"{self.name}: {self.text('pair-words')}: {held[a, b]}")
        self.shown += 1

    def fill(self, which, text):
        """Typed into an input that is empty then."""
        self.ask(f"(() => {{ const e = document.getElementById({which!r}); e.focus(); e.select(); }})()")
        self.browser.type(text)

    def span_is(self, low, high, oi):
        found = dict(self.list("span"))
        wanted = viewpage.answered(self.a, self.spans, self.source, self.t, [(low, high, oi)])[0]
        wanted = (0, *wanted) if len(wanted) == 5 else wanted
        if wanted[0] != 0:
            right = found.get("refused", "").startswith(f"with {wanted[0]}: ")
        else:
            ends = [struct.unpack(">d", bytes.fromhex(e))[0] if e else math.nan for e in wanted[3:5]]
            right = found["bins"].startswith(f"{wanted[1]} to {wanted[2]} ") and found["Scalar NaNs"] == str(wanted[5])
            right = right and [verbs.bits(found[key]) for key in ("smallest", "largest")] == [verbs.bits(e) for e in ends]
        self.check(right, f"{self.name}: the span {low} to {high} shows {found}, not {wanted}")
        self.shown += 1

    def type_span(self, low, high, oi):
        self.fill("low", repr(low))
        self.fill("high", repr(high))
        self.span_is(low, high, oi)

    def picture(self, what):
        self.ask("scrollTo(0, 0)")
        self.browser.picture(f"{self.folder}/{self.name}-{what}.png")


def hammer(d):
    """Where a direction is in the picture of a sphere, as parts of its width and height."""
    flat, half = math.hypot(d[0], d[1]), math.atan2(d[1], d[0]) / 2
    root = math.sqrt(1 + flat * math.cos(half))
    return (flat * math.sin(half) / root + 1) / 2, (1 - d[2] / root) / 2


def quiet(look, what):
    wrong = look.browser.complaints()
    look.check(not wrong, f"{look.name}: the browser complains of {what}: {wrong}")
    asked = [address for address in look.browser.requests() if not address.startswith(("data:", pathlib.Path(look.page).resolve().as_uri()))]
    look.check(not asked, f"{look.name}: {what} asks for {asked}")


def keys(look):
    """From the first slab on by keys, and to the ends."""
    n_r, n_omega = look.t.bins[0], look.t.n_omega
    look.click_slab(2, 0)
    for key, ri, oi in (("ArrowRight", 3, 0), ("ArrowUp", 3, min(1, n_omega - 1)), ("ArrowLeft", 2, min(1, n_omega - 1)), ("ArrowDown", 2, 0), ("End", n_r - 1, 0),
                        ("ArrowRight", n_r - 1, 0), ("Home", 0, 0), ("ArrowLeft", 0, 0), ("ArrowDown", 0, 0)):
        look.browser.key(key)
        look.slab_is(ri, oi)
    for which, value, ri, oi in [("ri", 5, 5, 0)] + ([] if look.atom else [("oi", 4, 5, 4)]):
        look.fill(which, str(value))
        look.browser.key("Tab")
        look.slab_is(ri, oi)


def vertices(look, ri, oi, level):
    """Clicks on both spheres and on the matrix, and its keys."""
    held, mesh = look.energies(ri, oi), page.Mesh(level)
    look.click_slab(ri, oi)
    for a, b in ((7, 30), (mesh.n - 1, 0), (0, 11)):
        look.click("#a-sphere", *hammer(mesh.vertices[a]))
        if not look.atom:
            look.click("#b-sphere", *hammer(mesh.vertices[b]))
        look.pair_is(held, a, 0 if look.atom else b)
    if look.atom:
        return
    for a, b in ((3, 9), (0, 0), (mesh.n - 1, mesh.n - 1)):
        look.click("#matrix", (b + 0.5) / mesh.n, (a + 0.5) / mesh.n)
        look.pair_is(held, a, b)
    look.browser.key("ArrowUp")
    look.pair_is(held, mesh.n - 2, mesh.n - 1)
    look.browser.key("ArrowRight")
    look.pair_is(held, mesh.n - 2, mesh.n - 1)
    look.click("#to-lowest")
    lowest = min(held, key=lambda pair: float(held[pair]))
    look.pair_is(held, *lowest)


def spans(look, oi):
    rmin, dr, n_r = look.t.grid[0], look.t.grid[1], look.t.bins[0]
    rmax = page.fused(float(n_r), dr, rmin)
    for low, high in ((rmin, rmax), (rmin, rmin), (rmax, rmax), (rmin + 5.5 * dr, rmin + 9 * dr), (rmin + 9 * dr, rmin + 2 * dr), (rmin - 1, rmax), (rmin, rmax + 1),
                      (rmin + 17.25 * dr, rmin + 25 * dr)):
        look.type_span(low, high, oi)
    look.ask("document.getElementById('low-slider').focus()")
    before = look.ask("document.getElementById('low').value")
    look.browser.key("ArrowLeft")
    after = look.ask("document.getElementById('low').value")
    look.check(before != after, f"{look.name}: the slider does not move the low end")
    look.span_is(float(after), rmin + 25 * dr, oi)


def numbers(look, oi):
    """The profile as a table."""
    look.click("#profile-details summary")
    rows = look.ask("new Promise(done => setTimeout(() => done([...document.querySelectorAll('#profile-table tr')].map(r => [...r.children].map(c => c.textContent))), 100))")
    look.check(len(rows) == look.t.bins[0] + 1, f"{look.name}: {len(rows)} lines of the profile")
    for cells, line in zip(rows[1:], look.lines[oi::look.t.n_omega]):
        own = [cells[3], cells[5]] if cells[3] else ["", ""]
        wanted = [line["scalar"]] * 2 if line["scalar"] else [line["lowest"], line["highest"]]
        look.check(cells[0] == line["ri"] and float(cells[1]) == float(line["r"]) and cells[2] == line["kind"], f"{look.name}: {cells}: {line}")
        look.check([e and verbs.bits(e) for e in own] == [e and verbs.bits(e) for e in wanted], f"{look.name}: {cells}: {line}")
        look.shown += 1
    look.click("#profile-details summary")


def all_rows(look):
    found = look.ask("Array.from({length: table.count[3]}, (_, s) => rowItems(table, Math.floor(s / table.nOmega), s % table.nOmega))")
    look.check(len(found) == len(look.lines), f"{look.name}: {len(found)} rows")
    for items, line in zip(found, look.lines):
        look.check(viewpage.same_items(items, line), f"{look.name}: {items}: {line}")
        look.shown += 1


def looks(look, chosen, over, level, oi):
    """chosen: a slab of each kind, to be clicked; over: one to look at closely."""
    browser = look.browser
    browser.size(1280, 900)
    browser.scheme("light")
    look.open()
    quiet(look, "the page")
    look.picture("light")
    all_rows(look)
    for what, (ri, slab_oi) in chosen.items():
        look.click_slab(ri, slab_oi)
        look.picture(f"clicked-{what}")
    keys(look)
    vertices(look, *over, level)
    look.picture("vertices")
    look.click("#profile", 0.5, 0.3)
    middle = dict(look.list("row"))["ri"]
    look.check(abs(int(middle) - look.t.bins[0] / 2) <= look.t.bins[0] / 8, f"{look.name}: a click on the profile chooses {middle}")
    look.click_slab(over[0], oi)
    spans(look, oi)
    look.picture("span")
    numbers(look, oi)
    browser.scheme("dark")
    look.picture("dark")
    browser.size(400, 800)
    look.check(look.ask("document.documentElement.scrollWidth <= innerWidth"), f"{look.name}: a narrow window has to be scrolled sideways")
    look.picture("narrow")
    quiet(look, "what was done")
    browser.size(1280, 900)
    browser.scheme("light")
    look.open(f"#slab={over[0]},{oi}&a=1&b=2&low=nothing&high=")
    look.slab_is(over[0], oi)
    ends_are_no_numbers(look)
    # another place in the page that is open: it listens before this does
    look.ask("new Promise(done => { addEventListener('hashchange', () => done(true), {once: true}); location.hash = '#slab=3,0&low=&high=1e999'; })")
    look.slab_is(3, 0)
    ends_are_no_numbers(look)


def ends_are_no_numbers(look):
    look.check(dict(look.list("span")).get("refused", "").startswith("with 18: "), f"{look.name}: ends that are no numbers")


def cut(look):
    """A page that was not loaded whole says so."""
    with open(look.page, encoding="utf-8") as file:
        text = file.read()
    look.page = f"{look.folder}/cut.html"
    first = text.index('<script type="text/plain" class="table">')
    second = text.index("</script>", first) + len("</script>\n")
    for part, words in (text[:first + 1000], "this page is not whole, or scripts are not allowed"), (text[:first] + text[second:], "the page is not whole"):
        with open(look.page, "w", encoding="utf-8") as file:
            file.write(part)
        look.open()
        look.check(words in look.text("table-words") and look.ask("document.getElementById('main').hidden"), f"{look.name}: a page that is cut: {look.text('table-words')}")
        look.shown += 1


def main(tool, span_program, folder):
    profile = tempfile.mkdtemp(dir=folder, prefix="profile")
    browser = Browser(profile)
    try:
        pair = Look(browser, tool, span_program, folder, "table")
        looks(pair, {"scalar": (2, 2), "repulsive": (1, 5), "nearest": (17, 7), "interpolated": (9, 11)}, (15, 3), 1, 6)
        atom = Look(browser, tool, span_program, folder, "ion")
        looks(atom, {"scalar": (40, 0), "repulsive": (1, 0), "nearest": (20, 0), "interpolated": (6, 0)}, (18, 0), 2, 0)
        cut(pair)
    finally:
        browser.close()
    wrong = pair.a.wrong + atom.a.wrong
    print(f"{pair.shown + atom.shown} things shown by two pages in Chromium, {wrong} wrong; the pictures are in {folder}")
    return 1 if wrong else 0


sys.exit(main(*sys.argv[1:]))
