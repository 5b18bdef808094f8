#!/usr/bin/env python3
"""Alters a copy of the sources and asks which files of docs/promises move. An alteration of a contract, a definition, a
declared type or a constant moves exactly the promises that reach it, by the program's own graph and by another reading of
the sources (words.py). A proof, a function's body, a comment in a proof, an order or a mark moves none. A name that is
nothing known is an error with file, line and name."""
import os
import re
import shutil
import subprocess
import sys
import tempfile

sys.dont_write_bytecode = True
ROOT = os.path.normpath(os.path.join(os.path.dirname(os.path.abspath(__file__)), '..', '..'))
TOOL = os.path.join(ROOT, 'tools', 'promises')
sys.path.insert(0, TOOL)

from stored import promised, stored_in, texts_of  # noqa: E402
from tree import Tree  # noqa: E402
from words import Words  # noqa: E402
from wrong import Wrong  # noqa: E402

# what moves: what it is, the file, the old and the new text, and the declaration that is altered
MOVES = [
    ('an operand of a contract', 'crates/icotable/src/lib.rt', 'store.old words.old) ri oi energies',
     'store.old words.old) oi ri energies', 'fn icotable_set'),
    ('the parameters of a contract', 'crates/float_c/src/lib.rt', 'fn float_mul_add(a: f64, b: f64,',
     'fn float_mul_add(b: f64, a: f64,', 'fn float_mul_add'),
    ('a body two levels below', 'crates/grid/specs/Settings.antt', 'slabs_fit n m top = leb (n * m * per top) 4294967295',
     'slabs_fit n m top = leb (n * m * per top) 4294967294', 'slabs_fit'),
    ('a body deep below', 'crates/lists/specs/Questions.antt', 'ask q n rest = cond q rest n',
     'ask q n rest = cond q n rest', 'ask'),
    ('a type', 'crates/grid/specs/Bins.antt', 'table_rmax : ℕ → Float → Float → Float',
     'table_rmax : ℕ → Float → Float → ℕ', 'table_rmax'),
    ("a struct's field", 'crates/builder/src/lib.rt', '    pub level: u64,', '    pub level: u32,', 'Builder'),
    ("an enum's variant", 'crates/rows/src/lib.rt', '    Scalar(f32),', '    Scalar(f64),', 'SlabResolution'),
    ('a constant', 'crates/float/specs/Exp.antt', 'H = 0x3FE6_2E42_FEE0_0000', 'H = 0x3FE6_2E42_FEE0_0001', 'H'),
    ("a record's field", 'crates/ledger/specs/Promise.antt', '  pub levels : suc a.top ≡ suc b.top',
     '  pub levels : a.top ≡ suc b.top', 'Same'),
    ("a law's type", 'crates/grid/proofs/Rises.antt', 'pub bins_rise : (x y rmin dr : Float)',
     'pub bins_rise : (y x rmin dr : Float)', 'bins_rise'),
    ('two names exchanged', 'crates/icotable/specs/Sizes.antt', '{vertex_count, grid_size, cell_count}',
     '{vertex_count, cell_count as grid_size, grid_size as cell_count}', 'held_cells'),
]
# what does not move
STAYS = [
    ('a proof', 'crates/ledger/proofs/Theorem.antt', 'promise a b p q = ((same a b p q, equal a b p q)',
     'promise a b p q = ((same b a p q, equal a b p q)'),
    ('a comment in a proof', 'crates/ledger/proofs/Theorem.antt', '-- 22 and 23 were put to its tail',
     '-- 22 was put to its tail'),
    ("a private function's body", 'crates/icotable/src/lib.rt', 'Ok(builder) => BuildAnswer { number: 0,',
     'Ok(builder) => BuildAnswer { number: 1,'),
    ("a private function's contract", 'crates/icotable/src/lib.rt', 'result ≡ no_builder.grid',
     'no_builder.grid ≡ result'),
    ('a mark', 'crates/grid/specs/Settings.antt', 'unfoldable pub slabs_fit :', 'abbrev pub slabs_fit :'),
    ('what unfolds', 'crates/grid/specs/Settings.antt', 'unfolding above lt\n', 'unfolding lt\n'),
    ('the order of use lines', 'crates/grid/specs/Settings.antt',
     'use Rattle.std.specs.Float.{binary64}\nuse Rattle.std.specs.Float.Ieee.{of_bits, lt}\n',
     'use Rattle.std.specs.Float.Ieee.{lt, of_bits}\nuse Rattle.std.specs.Float.{binary64}\n'),
]
# what is an error, and what its message has to have
FAILS = [
    ('a name in a body', 'crates/grid/specs/Settings.antt', 'slabs_fit n m top = leb (n', 'slabs_fit n m top = lebb (n',
     r'crates/grid/specs/Settings\.antt:\d+: `lebb`'),
    ('a name in a contract', 'crates/float_c/src/lib.rt', 'result ≡ root x', 'result ≡ rot x',
     r'crates/float_c/src/lib\.rt:\d+: `rot`'),
    ('a name that a use line no longer brings', 'crates/grid/specs/Settings.antt', 'not, ◌&&◌, leb, eqb, Float}',
     'not, ◌&&◌, leb, Float}', r'crates/grid/specs/Settings\.antt:\d+: `eqb`'),
    ('a use line that names nothing', 'crates/grid/specs/Settings.antt', 'Questions.{ask}', 'Questions.{aks as ask}',
     r'crates/grid/specs/Settings\.antt:\d+: no `aks` in crates/lists/specs/Questions\.antt'),
    ('a field', 'crates/grid/specs/Settings.antt', 'own_count g.n_r g.dr g.rmin) 4',
     'own_count g.n_r g.drr g.rmin) 4', r'crates/grid/specs/Settings\.antt:\d+: `\.drr`'),
    ('a literal', 'crates/builder/specs/Calls.antt', 'level = top; packed = 0 }',
     'level = top }',
     r'crates/builder/specs/Calls\.antt:\d+: a record with the '),
    ('a type of Rattle', 'crates/builder/src/lib.rt', '    pub packed: u64,', '    pub packed: Packed,',
     r'crates/builder/src/lib\.rt:\d+: `Packed`'),
    ('a form that is not read', 'crates/grid/specs/Settings.antt', 'slabs_fit n m top = leb', 'slabs_fit n m top = do leb',
     r'crates/grid/specs/Settings\.antt:\d+: `do` is not read'),
    ('a word of the page', 'docs/PROMISE.md', '**`any_order`**', '**`any_ordre`**', r'docs/PROMISE\.md:\d+: `any_ordre`'),
    ('a place of the page', 'docs/PROMISE.md', '**`any_order`** (`ledger` proofs/Order)',
     '**`any_order`** (`ledger` proofs/Runs)', r'docs/PROMISE\.md:\d+: `any_order` is not in ledger proofs/Runs'),
    ('several laws of one name', 'docs/PROMISE.md', '(`once`, `ledger` specs/Order)', '(`once`)',
     r'docs/PROMISE\.md:\d+: `once` is the name of several things'),
    ('a law that the index does not list', 'docs/PROMISE.md', 'One theorem, **`promise`**',
     'One theorem, `round_sticky`, **`promise`**', r'operations\.py: `round_sticky` is not listed'),
]
wrong = []


def expect(holds, message):
    if not holds:
        wrong.append(message)
        print('wrong: ' + message)


def copied(folder):
    """The sources and the stored promises."""
    for name in ('crates', 'docs'):
        shutil.copytree(os.path.join(ROOT, name), os.path.join(folder, name), ignore=shutil.ignore_patterns('out'))
    shutil.copy(os.path.join(ROOT, 'crates.txt'), folder)


class Altered:
    """The copy while one text in it is another."""

    def __init__(self, folder, file, old, new):
        self.path, self.old, self.new = os.path.join(folder, file), old, new

    def __enter__(self):
        with open(self.path, encoding='utf-8') as opened:
            self.text = opened.read()
        if self.text.count(self.old) < 1:
            raise SystemExit('tests/promises: %s has no `%s`' % (self.path, self.old))
        self.put(self.text.replace(self.old, self.new, 1))

    def __exit__(self, *_):
        self.put(self.text)

    def put(self, text):
        with open(self.path, 'w', encoding='utf-8') as opened:
            opened.write(text)


def texts(folder):
    return texts_of(promised(Tree(folder)), stored_in(os.path.join(folder, 'docs', 'promises')))


def moved(before, after):
    """The promises whose text is another one; the index counts lines and definitions, so it may move too."""
    return {file for file in set(before) | set(after) if before.get(file) != after.get(file)} - {'README.md'}


def keyed(found):
    """A declaration as words.py has it."""
    if hasattr(found, 'module'):
        return found.module.file, found.name
    return found.source.file, ('fn ' if found.kind == 'fn' else '') + found.name


def moves(folder, before, promises, words):
    """Each alteration moves the promises that reach it, by the program's graph and by words.py, and no other."""
    followed = {}
    for one in promises.values():
        own = keyed(one.found)
        followed[one.file] = words.reached(own) | {own}
        expect({keyed(found) for found in one.reached.items} <= followed[one.file], one.file + ': words.py reaches less')
    for title, file, old, new, name in MOVES:
        with Altered(folder, file, old, new):
            found = moved(before, texts(folder))
        graph = {one.file for one in promises.values() if (file, name) in map(keyed, one.reached.items)}
        expect(found, '%s (%s): nothing moved' % (title, file))
        expect(found == graph, '%s (%s): moved but not reached, or the reverse: %s' % (title, file, found ^ graph))
        other = {one for one in followed if (file, name) in followed[one]}
        expect(found == other, '%s (%s): by words.py: %s' % (title, file, found ^ other))
        print('%s: %d files move' % (title, len(found)))


def stays(folder, before):
    for title, file, old, new in STAYS:
        with Altered(folder, file, old, new):
            after = texts(folder)
        expect(after == before, '%s (%s): moved %s' % (title, file, moved(before, after) or 'the index'))
        print('%s: no file moves' % title)


def fails(folder):
    for title, file, old, new, message in FAILS:
        said = 'no error'
        with Altered(folder, file, old, new):
            try:
                texts(folder)
            except Wrong as error:
                said = str(error)
        expect(re.search(message, said), '%s (%s): %s' % (title, file, said))
        print('%s: %s' % (title, said))


def reordered(folder, before):
    """Two definitions exchange their places in a file."""
    with open(os.path.join(folder, 'crates/grid/specs/Bins.antt'), encoding='utf-8') as opened:
        parts = opened.read().split('\n\n')
    with Altered(folder, 'crates/grid/specs/Bins.antt', '\n\n'.join(parts[1:3]), '\n\n'.join([parts[2], parts[1]])):
        expect(texts(folder) == before, 'two definitions in another order: a file moves')
    print('two definitions in another order: no file moves')


def called(folder, path=None):
    """The program's own status and output with --check."""
    env = dict(os.environ, PATH=path) if path else None
    done = subprocess.run([sys.executable, TOOL, '--check', '--root', folder], capture_output=True, text=True, env=env)
    return done.returncode, done.stdout + done.stderr


def checks(folder):
    """--check passes, with and without a kit, and names a file that differs, one that is missing and one too many."""
    status, said = called(folder)
    expect(status == 0, 'a tree as it is stored: ' + said)
    status, said = called(folder, folder)
    expect(status == 0, 'with no kit: ' + said)
    stored = 'docs/promises/laws/bins_rise.md'
    with Altered(folder, stored, '→ is_nan y ≡ false', '→ is_nan x ≡ false'):
        status, said = called(folder)
    expect(status == 1 and stored + ': line 7 differs' in said, 'a stored line that differs: ' + said)
    os.rename(os.path.join(folder, stored), os.path.join(folder, 'docs/promises/laws/none.md'))
    status, said = called(folder)
    expect(status == 1 and stored + ': missing' in said, 'a file that is missing: ' + said)
    expect('laws/none.md: no promise has this name' in said, 'a file too many: ' + said)
    print('--check: names what differs')


def links():
    """The index points to files that are there."""
    page = [sys.executable, 'tests/hosts/links.py', 'docs/promises/README.md']
    done = subprocess.run(page, capture_output=True, text=True, cwd=ROOT)
    expect(done.returncode == 0, done.stdout + done.stderr)
    print('the index: ' + done.stdout.strip().split('\n')[-1])


def main():
    with tempfile.TemporaryDirectory() as folder:
        copied(folder)
        before, promises = texts(folder), promised(Tree(folder))
        moves(folder, before, promises, Words(folder))
        stays(folder, before)
        reordered(folder, before)
        fails(folder)
        checks(folder)
    links()
    print('tests/promises: %d wrong' % len(wrong))
    sys.exit(bool(wrong))


main()
