"""The names in a term. A name is bound where it stands, or it is the file's own, or a `use` line brings it, or it is the
prelude's; anything else is an error."""
from antt import Definition, before, telescope
from kit import CONSTRUCTORS, FORMS, HIDDEN, NOTATION, PRELUDE
from tokens import NUMERAL, RESERVED, Group, grouped, split, tokens_of
from tree import Constructor, Kit
from wrong import Wrong


class Scope:
    """What the names of a file mean there, where nothing nearer binds them."""

    def __init__(self, tree, uses, modules, own=None):
        self.tree, self.uses, self.modules, self.own = tree, uses, modules, own
        names = list(uses) + (list(own.defined) + list(own.built) if own else [])
        self.operators = {}
        for name in names:
            if '◌' in name:
                for part in filter(None, name.split('◌')):
                    self.operators.setdefault(part, []).append(name)

    def lookup(self, name, place):
        """What a name is that is not bound nearby, None where it is nothing."""
        if self.own and (name in self.own.defined or name in self.own.built):
            return self.tree.member(self.own, [name], place)
        if name in self.uses:
            return self.tree.found(self.uses[name], place)
        return Kit(PRELUDE[name]) if name in PRELUDE else None

    def spelled(self, name, place):
        """The name itself, or the operator of which it is a part."""
        whole = self.operators.get(name, []) if self.lookup(name, place) is None else []
        if len(whole) > 1:
            raise Wrong(place, '`%s` is a part of %s' % (name, ' and of '.join('`%s`' % one for one in whole)))
        return whole[0] if whole else name

    def path(self, parts, place):
        """What a path means whose first part is not bound nearby."""
        if parts[0] in self.modules:
            return self.tree.found(self.modules[parts[0]] + parts[1:], place)
        head = self.lookup(parts[0], place)
        if head is None:
            return self.tree.found(parts, place)
        if isinstance(head, Kit):
            return Kit('.'.join([head.path] + parts[1:]))
        return self.tree.part(head, parts[1:], place)


class Reader:
    """Collects what a declaration names: definitions, names of the kit, fields, and the fields of record literals."""

    def __init__(self, scope):
        self.scope = scope
        self.named, self.fields, self.literals = [], [], []

    def refer(self, token, bound):
        """A name or a path."""
        parts, place = token.parts, token.place()
        if parts[0] in bound:
            self.fields += [(part, place) for part in parts[1:] if not NUMERAL.match(part)]
            return
        if len(parts) > 1 and self.is_value(parts[0], place):
            self.fields += [(part, place) for part in parts[1:] if not NUMERAL.match(part)]
            parts = parts[:1]
        name = self.scope.spelled(parts[0], place) if len(parts) == 1 else '.'.join(parts)
        found = self.scope.path(parts, place) if len(parts) > 1 else self.scope.lookup(name, place)
        if found is None:
            raise Wrong(place, '`%s` is nothing that is known here' % name)
        self.named.append((name, found))

    def is_value(self, name, place):
        """Whether a name is of a function or a value, whose fields may be read, and not of a type or a module."""
        found = None if name in self.scope.modules else self.scope.lookup(name, place)
        return isinstance(found, Definition) and found.kind == 'function'

    def term(self, items, bound):
        """A term, or several with commas between them."""
        for part in split(items, ','):
            self.plain(part, set(bound))

    def plain(self, items, bound):
        at = 0
        while at < len(items):
            item = items[at]
            word = item.text if item.kind == 'name' and len(item.parts) == 1 else None
            if isinstance(item, Group):
                self.group(item, bound)
            elif word == 'λ':
                at = self.binders(items, at + 1, bound)
            elif word == 'let':
                at = self.let(items, at + 1, bound)
            elif word == 'record':
                at += 1
                self.literal(items[at], bound)
            elif item.kind == 'projection':
                self.fields += [(part, item.place()) for part in item.parts if not NUMERAL.match(part)]
            elif item.kind == 'name' and word not in NOTATION and word not in FORMS:
                if word in RESERVED:
                    raise Wrong(item.place(), '`%s` is not read by this program' % word)
                self.refer(item, bound)
            elif item.kind in ('sign', 'dot'):
                raise Wrong(item.place(), 'a `%s` that is not read by this program' % item.text)
            at += 1

    def group(self, group, bound):
        """( term ), ( x y : type ) which binds for what follows, { name = term } or { term }"""
        names, rest = before(group.items, ':')
        if rest is not None:
            self.term(rest, bound)
            bound |= self.simple(names)
            return
        given = group.text == '{' and len(group.items) > 1 and group.items[1].text == '='
        self.term(group.items[2:] if given else group.items, bound)

    @staticmethod
    def simple(names):
        """The names before a colon."""
        for name in names:
            if name.kind != 'name' or len(name.parts) > 1:
                raise Wrong(name.place(), 'a binder that is not read by this program')
        return {name.text for name in names}

    def binders(self, items, at, bound):
        """What follows a λ, to its dot: names, typed names, tuples."""
        while items[at].kind != 'dot':
            item = items[at]
            if isinstance(item, Group) and item.has(':'):
                self.group(item, bound)
            else:
                self.pattern([item], bound)
            at += 1
        return at

    def let(self, items, at, bound):
        """x = term in; x : type = term in"""
        end, depth = at, 1
        while depth:
            end += 1
            if end == len(items):
                raise Wrong(items[at].place(), 'a `let` with no `in`')
            depth += (items[end].text == 'let') - (items[end].text == 'in') if items[end].kind == 'name' else 0
        left, value = before(items[at:end], '=')
        names, typed = before(left, ':')
        if typed is not None:
            self.term(typed, bound)
        self.term(value, bound)
        self.pattern(names, bound)
        return end

    def literal(self, group, bound):
        """record { field = term; .. }, of all fields that its record has"""
        if not isinstance(group, Group) or group.text != '{':
            raise Wrong(group.place(), 'a record that is not read by this program')
        labels = []
        for part in split(group.items, ';'):
            if part:
                label, value = before(part, '=')
                if value is None or len(label) != 1:
                    raise Wrong(group.place(), 'a record that is not read by this program')
                labels.append(label[0].text)
                self.term(value, bound)
        self.literals.append((frozenset(labels), group.place()))

    def pattern(self, items, bound):
        """A pattern: a name is a constructor where one is in scope, and else it is bound."""
        for item in items:
            if isinstance(item, Group):
                label, value = before(item.items, '=')
                for part in split(item.items if value is None else value, ',', ';'):
                    self.pattern(part, bound)
            elif item.kind == 'name' and item.text not in NOTATION:
                self.leaf(item, bound)
            elif item.kind not in ('numeral', 'name'):
                raise Wrong(item.place(), 'a pattern that is not read by this program')

    def leaf(self, item, bound):
        name = self.scope.spelled(item.text, item.place())
        found = self.scope.lookup(name, item.place())
        if len(item.parts) > 1:
            self.refer(item, set())
        elif isinstance(found, Constructor) or isinstance(found, Kit) and found.path.split('.')[-1] in CONSTRUCTORS:
            self.named.append((name, found))
        elif isinstance(found, Kit) and found.path not in HIDDEN:
            raise Wrong(item.place(), 'a pattern has `%s`: say in kit.py whether it is a constructor' % found.path)
        else:
            bound.add(item.text)

    # ---- declarations

    def sections(self, found):
        """The names that the parameters of its sections bind."""
        bound = set()
        for head in found.sections:
            items = grouped(tokens_of(head.lines, found.module.file))
            groups, rest = telescope(items[2:])
            if [item.text for item in items[:2] + rest] != ['module', '_', 'where']:
                raise Wrong('%s:%d' % (found.module.file, head.lines[0][0]), 'a block that is not read by this program')
            for group in groups:
                self.group(group, bound)
        return bound

    def definition(self, found, whole):
        """All of a definition; of a law its type alone."""
        bound = self.sections(found)
        if found.kind == 'function':
            levels, signature = found.signature()
            if levels:
                bound |= self.simple(levels.items)
            self.term(signature, bound)
            for chunk in found.clauses if whole else []:
                self.clause(found, chunk, bound)
            return
        groups, rest = telescope(found.parameters)
        if rest:
            raise Wrong(found.where(), 'a parameter that is not read by this program')
        for group in groups:
            self.group(group, bound)
        self.term(found.result, bound)
        for names, typed in found.fields + found.constructors:
            self.term(typed, bound)
            bound |= set(names) if found.kind == 'record' else set()

    def clause(self, found, chunk, bound):
        """name patterns = term"""
        left, value = before(grouped(tokens_of(chunk.lines, found.module.file)), '=')
        if value is None or left[0].text != found.name:
            raise Wrong('%s:%d' % (found.module.file, chunk.lines[0][0]), 'a clause that is not read by this program')
        inner = set(bound)
        self.pattern(left[1:], inner)
        self.term(value, inner)
