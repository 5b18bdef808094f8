"""The text of a promise: its contract or its type, and every definition that it reaches."""
from kit import PRELUDE
from rattle import Declared

HEAD = '''# `%s`

%s.
%s. `tools/promises/run` writes this file.

```%s
%s
```
%s'''
KIT = '''
## Of the kit

%s

```
%s
```
'''


class Promise:
    """A contract or a law with what it reaches."""

    def __init__(self, name, reached):
        self.name, self.reached, self.found = name, reached, reached.promise
        self.is_law = not isinstance(self.found, Declared)
        self.file = '%s/%s.md' % ('laws' if self.is_law else 'contracts', name.replace('::', '.'))

    def typed(self):
        """The type of a law, where it is a name."""
        items = self.found.signature()[1] if self.is_law else []
        return items[0].text if len(items) == 1 else ''

    def sentence(self):
        place = '`%s` %s' % tuple(self.found.key()[0].split(' '))
        if self.is_law:
            return 'The law `%s` (%s): its type, and every definition that it reaches' % (self.name, place)
        kind = 'function' if '::' in self.name else 'export'
        return 'The contract of the %s `%s` (%s), and every definition that it reaches' % (kind, self.name, place)

    def text(self):
        sections, spelled = self.reached.sections(), self.reached.spelled()
        count = sum(len(inside) for _, inside in sections)
        counted = '%s in %s' % (number(count, 'definition'), number(len(sections), 'file')) if count else 'There is none'
        shown = self.found.text(False) if self.is_law else self.found.text()
        head = HEAD % (self.name, self.sentence(), counted, 'antt' if self.is_law else 'rust', shown,
                       self.notes(self.found.key()[0], [self.found], spelled))
        kit = sorted(self.reached.kit)
        parts = [section(place, inside, self.notes(place, inside, spelled)) for place, inside in sections]
        return head + ''.join(parts) + KIT % (number(len(kit), 'name') + '.', '\n'.join(kit))

    def notes(self, place, inside, spelled):
        """The names that another name has where it is declared, and those that mean two things in this promise."""
        lines = []
        for name, target in sorted({one for found in inside for one in self.reached.graph.named(found).spelled}):
            renamed = name != target[1].split('.')[-1] and name not in PRELUDE
            if renamed or len(spelled[name]) > 1 and target[0] != place:
                lines.append('- `%s` is %s\n' % (name, described(name, *target)))
        return '\nHere\n\n' + ''.join(lines) if lines else ''


def described(spelled, place, name, home):
    """What a name means, in words."""
    if not place:
        return '`%s` of the kit' % name
    where = '`%s` %s' % tuple(place.split(' '))
    if home:
        return '`%s` of `%s` (%s)' % (name, home, where)
    return 'that of %s' % where if name == spelled else '`%s` of %s' % (name, where)


def number(count, noun):
    return '%d %s%s' % (count, noun, '' if count == 1 else 's')


def section(place, inside, notes):
    """The definitions of one file. The heads of blocks are written where they are other than those above."""
    lines, last = [], ()
    for found in inside:
        heads = getattr(found, 'sections', ())
        lines.append(found.text(heads=heads != last) if heads else found.text())
        last = heads
    crate, file = place.split(' ')
    language = 'rust' if file.startswith('src/') else 'antt'
    return '\n## `%s` %s\n%s\n```%s\n%s\n```\n' % (crate, file, notes, language, '\n\n'.join(lines))
