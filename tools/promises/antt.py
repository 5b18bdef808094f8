"""The files of specs/ and proofs/: what they use, and what they declare."""
import re

from tokens import Group, grouped, tokens_of, word
from wrong import Wrong

MARKS = re.compile(r'^(\s*)((?:(?:unfoldable|abbrev|pub|axiom) )*)')
SHAPES = 'data', 'record'
# chunks that declare nothing: fixity, what proofs hand to tactics, and names of a parameter's fields
ASIDE = 'infix', 'infixl', 'infixr', 'ruleset', 'open'
UNREAD = 'mutual', 'deriving'
SIGNATURE = re.compile(r'\s*(«[^»]*»|[^\s(){}.;,@"«»]+)( \{[^:}]*\})? :( |$)')


class Chunk:
    """A line at some column with the deeper ones below it, and the comment lines above it."""

    def __init__(self, comment, lines):
        self.comment, self.lines = comment, lines

    def first(self):
        """The first word behind the marks."""
        words = MARKS.sub('', self.lines[0][1]).split()
        return words[0] if words else ''

    def bare(self):
        """The lines without marks, which say who may name and unfold a thing and not what it is."""
        number, text = self.lines[0]
        return [(number, MARKS.sub(r'\1', text))] + self.lines[1:]


def column(text):
    return len(text) - len(text.lstrip())


def chunks(lines):
    """The chunks of lines that have one column, the first line's."""
    base = next((column(text) for _, text in lines if text.strip()), 0)
    found, comment = [], []
    for number, text in lines:
        bare = text.strip()
        if not bare:
            comment = []
        elif column(text) == base and bare.startswith('--'):
            comment.append((number, text))
        elif column(text) == base and bare[0] not in ')}':
            found.append(Chunk(comment, [(number, text)]))
            comment = []
        elif found:
            found[-1].lines += comment + [(number, text)]
            comment = []
    return found


class Definition:
    """What a file declares: its words, its text, and what stands in it. `sections` are the heads of the blocks around
    it, the outermost first."""

    def __init__(self, module, kind, name, chunk, sections):
        self.module, self.kind, self.name, self.sections = module, kind, name, sections
        self.line = chunk.lines[0][0]
        self.comment, self.head, self.shown = chunk.comment, chunk.bare(), chunk.bare()
        self.marks = MARKS.match(chunk.lines[0][1]).group(2).split()
        self.fields, self.constructors, self.clauses = [], [], []

    def key(self):
        return '%s %s' % (self.module.crate, self.module.place), self.name

    def where(self):
        return '%s:%d' % (self.module.file, self.line)

    def signature(self):
        """Of a function: its level parameters, None where there are none, and its type."""
        items = grouped(tokens_of(self.head, self.module.file))[1:]
        return (items[0], items[2:]) if isinstance(items[0], Group) else (None, items[1:])

    def text(self, whole=True, heads=True):
        """The comment and the declaration, under the heads of its sections; or no more than its type."""
        above = [line for head in self.sections for line in head.comment + head.lines] if heads else []
        return '\n'.join(text for _, text in above + self.comment + (self.shown if whole else self.head))


def before(items, text):
    """What stands before and behind the first such word."""
    for at, item in enumerate(items):
        if item.kind == 'name' and item.text == text:
            return items[:at], items[at + 1:]
    return items, None


class Module:
    """A file: `uses` has the path of each name that it brings in, `modules` that of each module."""

    def __init__(self, crate, folder, name, file, text):
        self.crate, self.folder, self.name, self.file = crate, folder, name, file
        self.place = '%s/%s' % (folder, name.replace('.', '/'))
        self.uses, self.modules, self.shared = {}, {}, set()
        self.defined, self.built = {}, {}
        self.block(list(enumerate(text.split('\n'), 1)), ())

    def block(self, lines, sections):
        current = None
        for chunk in chunks(lines):
            first = chunk.first()
            if first == 'use':
                self.use(chunk)
            elif first == 'module':
                head, rest = self.head(chunk.lines)
                self.block(rest, sections + (Chunk(chunk.comment, head),))
            elif first not in ('mod',) + ASIDE:
                current = self.declares(chunk, sections, current)

    def use(self, chunk):
        """use M.{a, b as c}; use M; use M as N"""
        marked = chunk.lines[0][1].split('use ')[0]
        text = ' '.join(text.split('-- ')[0].strip() for _, text in chunk.lines).split('use ', 1)[1]
        path, _, names = text.partition('.{')
        if not names:
            path, _, name = path.partition(' as ')
            self.modules[name or path.split('.')[-1]] = path.split('.')
            return
        for item in names.rstrip('}').split(','):
            source, _, name = item.strip().partition(' as ')
            parts = path.split('.') + source.split('.')
            self.uses[name or parts[-1]] = parts
            if 'pub' in marked:
                self.shared.add(name or parts[-1])

    def declares(self, chunk, sections, current):
        """A data type, a record, a signature, or a clause of the function whose signature came last."""
        first, place = chunk.first(), '%s:%d' % (self.file, chunk.lines[0][0])
        if first in SHAPES:
            return self.shape(chunk, sections)
        if first == 'unfolding':
            return current
        if first in UNREAD or chunk.lines[0][1].strip().startswith('axiom'):
            raise Wrong(place, '`%s` is not read by this program' % chunk.lines[0][1].strip())
        signed = SIGNATURE.match(chunk.bare()[0][1])
        if signed:
            current = Definition(self, 'function', word(signed.group(1), 0)[1], chunk, sections)
            self.add(current)
        elif current is None or current.kind != 'function':
            raise Wrong(place, 'a line that belongs to no declaration')
        else:
            current.clauses.append(chunk)
            current.shown = current.shown + chunk.comment + chunk.lines
        return current

    def shape(self, chunk, sections):
        """data NAME PARAMETERS : TYPE where, and its constructors; a record likewise, and its fields."""
        kind = chunk.first()
        lines = chunk.bare()
        head, rest = self.head(lines)
        items = grouped(tokens_of(head, self.file))
        found = Definition(self, kind, items[1].text, chunk, sections)
        found.parameters, found.result = before(before(items, 'where')[0][2:], ':')
        found.shown = head
        for inner in chunks(rest):
            if inner.first() == 'deriving':
                raise Wrong('%s:%d' % (self.file, inner.lines[0][0]), '`deriving` is not read by this program')
            names, typed = before(grouped(tokens_of(inner.bare(), self.file)), ':')
            entry = [name.text for name in names], typed
            (found.fields if kind == 'record' else found.constructors).append(entry)
            found.shown = found.shown + inner.comment + inner.bare()
        self.add(found)
        return found

    def head(self, lines):
        for at, (number, text) in enumerate(lines):
            if text.rstrip().endswith('where'):
                return lines[:at + 1], lines[at + 1:]
        raise Wrong('%s:%d' % (self.file, lines[0][0]), 'a declaration with no `where`')

    def add(self, found):
        if found.name in self.defined:
            raise Wrong(found.where(), '`%s` is declared twice' % found.name)
        self.defined[found.name] = found
        for names, _ in found.constructors:
            for name in names:
                self.built[name] = found


def telescope(items):
    """The bracketed binders at the head of items, and what follows them."""
    at = 0
    while at < len(items) and isinstance(items[at], Group) and items[at].has(':'):
        at += 1
    return items[:at], items[at:]
