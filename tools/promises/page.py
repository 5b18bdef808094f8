"""Which laws and functions docs/PROMISE.md names. Each word between backticks is read: a law is promised, and a word that
is nothing known is an error, so that nothing is named there without being stored."""
import re

from tree import ROOTS
from wrong import Wrong

PAGE = 'docs/PROMISE.md'
# words of the page that are of C, of the compiler or of a host
OTHERS = {'memcpy', 'memset', '-ffast-math', 'icotable_float_environment()'}
WORD = re.compile(r'`([^`\n]+)`')
# `crate` proofs/File
PLACE = re.compile(r'`\w+`\s+(proofs|specs)/(\w+)')
# `law` (`crate` proofs/File), and in a paragraph that has named the crate `law` (proofs/File); or with a comma between
BESIDE = re.compile(r'\**,?\s+\(?(?:`(\w+)`\s+)?(proofs|specs)/(\w+)')


class Page:
    """The page's words, and what they name."""

    def __init__(self, tree):
        self.tree, self.text = tree, tree.content(PAGE)
        self.laws, self.functions, self.placed = [], [], set()
        self.declared = {}
        for module in tree.all_modules('proofs'):
            for found in module.defined.values():
                self.declared.setdefault(found.name, []).append(found)
        self.specs()
        for paragraph in re.finditer(r'(?:[^\n]+\n)+', self.text):
            self.paragraph(paragraph)
        self.laws = list(dict.fromkeys(self.laws))

    def specs(self):
        """The definitions of specs/ by their names, and the names of fields and constructors."""
        self.defined, self.parts = {}, set()
        for module in self.tree.all_modules('specs'):
            for found in module.defined.values():
                self.defined.setdefault(found.name, []).append(found)
                self.parts |= parts(found)

    def paragraph(self, paragraph):
        """The words of a paragraph. A file of laws that it names holds for the names behind it."""
        crate, last = None, None
        for found in WORD.finditer(self.text, paragraph.start(), paragraph.end()):
            word, beside = found.group(1), BESIDE.match(self.text, found.end())
            if word in self.tree.crates:
                crate = word
                place = PLACE.match(self.text, found.start())
                last = (word,) + place.groups() if place and place.group(1) == 'proofs' else last
            elif beside:
                where = beside.group(1) or crate, beside.group(2), beside.group(3)
                last = where if where[1] == 'proofs' else last
                self.at(word, where, found.start())
            else:
                self.plain(word, last, found.start())

    def place(self, at):
        return '%s:%d' % (PAGE, self.text.count('\n', 0, at) + 1)

    def section(self, at):
        """Where the section of the page that has the place begins."""
        return self.text.rfind('\n## ', 0, at)

    def at(self, word, where, at):
        """A name with its place."""
        module = where[0] and self.tree.module(*where)
        if not module or not (word in module.defined or any(word in parts(one) for one in module.defined.values())):
            raise Wrong(self.place(at), '`%s` is not in %s %s/%s' % ((word,) + where))
        self.placed.add((word, self.section(at)))
        if where[1] == 'proofs':
            self.laws.append(module.defined[word])

    def plain(self, word, last, at):
        """A name without a place: the law of that name; of several the one in the file that was named last."""
        laws, place = self.declared.get(word, []), self.place(at)
        there = [law for law in laws if last == (law.module.crate, law.module.folder, law.module.name)]
        if (word, self.section(at)) in self.placed or self.is_part(word, at):
            return
        if there or len(laws) == 1 and word not in self.defined:
            self.laws.append((there or laws)[0])
        elif laws:
            places = ', '.join(found.key()[0] for found in laws + self.defined.get(word, []))
            raise Wrong(place, '`%s` is the name of several things (%s): write its place behind it' % (word, places))
        elif '::' in word:
            self.functions.append(self.function(word, place))
        elif word not in self.defined and word not in self.parts and word not in OTHERS:
            raise Wrong(place, '`%s` is nothing that is known' % word)

    def is_part(self, word, at):
        """Whether it is a part of the type of a law that was named before in the same section of the page."""
        types = re.findall(r'type\s+`(\w+)`', self.text[self.section(at):at])
        return any(word in parts(found) for name in types for found in self.defined.get(name, []))

    def function(self, word, place):
        """A function that is named by its crate."""
        path = word.split('::')
        for root in ROOTS if path[0] in self.tree.crates else ():
            source = self.tree.source(path[0], root)
            if source:
                return self.tree.item(source, path, place, 'functions').function(path[-1])
        raise Wrong(place, '`%s` is no function of the repository' % word)


def parts(found):
    """The names of a definition's fields and constructors."""
    return {name for names, _ in found.fields + found.constructors for name in names}
