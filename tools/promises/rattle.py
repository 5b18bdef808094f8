"""The files of src/: declared types, constants, and functions with their contracts."""
import re

from tokens import escaped
from wrong import Wrong

CLOSERS = {'(': ')', '{': '}', '[': ']'}
PRIMITIVE = set('Result Option bool f32 f64 i8 i16 i32 i64 isize u8 u16 u32 u64 usize'.split())
ITEM = re.compile(r'^((?:pub(?:\(crate\))? )?)(struct|enum|const|type) (\w+)', re.M)
FUNCTION = re.compile(r'^(?:pub(?:\(crate\))? )?(?:extern "C" )?fn (\w+)(?:<[^>]*>)?\(', re.M)


def closing(text, start, file):
    """The index of what closes the bracket at start."""
    depth = 0
    for at in range(start, len(text)):
        depth += (text[at] == text[start]) - (text[at] == CLOSERS[text[start]])
        if depth == 0:
            return at
    raise Wrong(file, 'a bracket is not closed: %s' % text[start:start + 40])


def imported(tree, before):
    """What a `use` line brings, by name: A::B and A::{B, C::D}."""
    path, _, inside = tree.partition('{')
    parts = before + [part for part in path.split('::') if part]
    if not inside:
        return {parts[-1]: parts}
    found, depth, names = {}, 0, ['']
    for sign in inside[:-1]:
        depth += (sign == '{') - (sign == '}')
        if sign == ',' and depth == 0:
            names.append('')
        else:
            names[-1] += sign
    for name in filter(None, names):
        found.update(imported(name, parts))
    return found


class Declared:
    """A struct, an enum, a constant, a name for a type, or a function with its contract."""

    def __init__(self, source, kind, name, start, end):
        self.source, self.kind, self.name = source, kind, name
        self.start, self.end = source.above(start), end
        self.body = source.bare[start:end]
        self.line = source.bare.count('\n', 0, start) + 1
        self.fields, self.constructors = [], []

    def key(self):
        return '%s %s' % (self.source.crate, self.source.place), self.name

    def where(self):
        return '%s:%d' % (self.source.file, self.line)

    def text(self):
        return self.source.text[self.start:self.end].strip('\n')


class Source:
    """A file of src/, with its comments and, of the same lengths, without them."""

    def __init__(self, crate, module, file, text):
        self.crate, self.module, self.file, self.text = crate, module, file, text
        self.place = 'src/%s' % module
        self.bare = re.sub(r'//[^\n]*', lambda found: ' ' * len(found.group()), text)
        self.used = {}
        for tree in re.findall(r'^(?:pub(?:\(crate\))? )?use ([^;]*);', self.bare, re.M):
            self.used.update(imported(''.join(tree.split()), []))
        self.ghost = re.findall(r'^ghost use ([^;]*);', self.bare, re.M)
        self.defined, self.functions = {}, {}
        self.types()
        for found in FUNCTION.finditer(self.bare):
            self.functions[found.group(1)] = found

    def above(self, start):
        """Where the comment and the attributes directly above an item begin."""
        while start:
            line = self.text.rfind('\n', 0, start - 1) + 1
            if not re.match(r'//|#\[', self.text[line:start]):
                return start
            start = line
        return start

    def types(self):
        for found in ITEM.finditer(self.bare):
            kind, name = found.group(2), found.group(3)
            opener = re.compile(r'[({;=]').search(self.bare, found.end())
            end = self.bare.index(';', found.end()) + 1 if opener.group() in ';=' else 0
            if not end:
                end = closing(self.bare, opener.start(), self.file) + 1
                end += self.bare.startswith(';', end)
            item = Declared(self, kind, name, found.start(), end)
            if kind in ('struct', 'enum') and opener.group() == '{':
                self.members(item, self.bare[opener.end():end - 1])
            elif kind == 'struct':
                item.types = [self.bare[opener.end():end - 2]]
            else:
                item.types = [item.body.partition(':')[2].replace('=', ' ')]
            self.defined[name] = item

    def members(self, item, inside):
        """The fields of a struct, the variants of an enum, and the types that they name."""
        if item.kind == 'struct':
            found = re.findall(r'(?:pub(?:\(crate\))? )?(\w+): ((?:\[[^\]]*\]|[^,\[])*)', inside)
            item.fields = [([escaped(name)], None) for name, _ in found]
            item.types = [typed for _, typed in found]
        else:
            found = re.findall(r'(\w+)(?:\(([^)]*)\)| ?\{([^}]*)\})?(?: = \d+)?\s*(?:,|$)', inside)
            item.constructors = [([name], None) for name, _, _ in found]
            item.types = [held or re.sub(r'\w+:', '', named) for _, held, named in found]

    def function(self, name):
        """A function as declared: everything before its body."""
        found = self.functions[name]
        start = found.start()
        end = closing(self.bare, found.end() - 1, self.file)
        parameters = re.findall(r'(\w+): ((?:\[[^\]]*\]|[^,\[])*)', self.bare[found.end():end])
        at, clauses, typed = end + 1, [], [kind for _, kind in parameters]
        result = re.compile(r'\s*->\s*([^{]*?)(?=\s*(?:requires|ensures|\{))').match(self.bare, at)
        if result:
            at = result.end()
            typed.append(result.group(1))
        while True:
            clause = re.compile(r'\s*ensures(?: \w+)?\s*\{').match(self.bare, at)
            if not clause:
                break
            at = closing(self.bare, clause.end() - 1, self.file)
            clauses.append((clause.end(), at))
            at += 1
        if not clauses or not re.compile(r'\s*\{').match(self.bare, at):
            raise Wrong('%s: %s' % (self.file, name), 'a contract that has a condition, or none, or is not read')
        item = Declared(self, 'fn', name, start, at)
        item.types, item.parameters = typed, [escaped(name) for name, _ in parameters]
        item.clauses = [self.lines(*clause) for clause in clauses]
        return item

    def lines(self, start, end):
        """The (number, text) lines of a part of the file."""
        first = self.bare.count('\n', 0, start) + 1
        return list(enumerate(self.bare[start:end].split('\n'), first))

    def exports(self):
        return re.findall(r'#\[unsafe\(no_mangle\)\]\s+pub extern "C" fn (\w+)\(', self.bare)
