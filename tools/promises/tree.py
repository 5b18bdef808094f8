"""The repository: its files, and what a path means."""
import glob
import os
import re

from antt import Module
from rattle import PRIMITIVE, Source
from wrong import Wrong

ROOTS = 'lib', 'main'
VARIANTS = 'TheVariants'


class Kit:
    """A name of the kit."""

    def __init__(self, path):
        self.path = path


class Constructor:
    """A constructor of a declared type."""

    def __init__(self, name, home):
        self.name, self.home = name, home


class Tree:
    """The crates under a root folder. A file that was read before, with the same text, is not read again."""

    read = {}

    def __init__(self, root):
        self.root, self.modules, self.sources, self.crates = root, {}, {}, self.listed(root)

    @staticmethod
    def listed(root):
        """The crates of crates.txt, in its order, each with those that it uses."""
        with open(os.path.join(root, 'crates.txt'), encoding='utf-8') as opened:
            lines = [line.split(':') for line in opened if line.strip() and not line.startswith('#')]
        return {head.split()[0]: rest.split() for head, rest in lines}

    def content(self, file):
        with open(os.path.join(self.root, file), encoding='utf-8') as opened:
            return opened.read()

    def once(self, kind, file, *names):
        """A file as it was read, None where there is none."""
        if not os.path.isfile(os.path.join(self.root, file)):
            return None
        key = file, self.content(file)
        if key not in Tree.read:
            Tree.read[key] = kind(*names, *key)
        return Tree.read[key]

    def module(self, crate, folder, name):
        """A file of specs/ or proofs/, None where there is none."""
        key = crate, folder, name
        if key not in self.modules:
            file = 'crates/%s/%s/%s.antt' % (crate, folder, name.replace('.', '/'))
            self.modules[key] = self.once(Module, file, crate, folder, name)
        return self.modules[key]

    def source(self, crate, module):
        key = crate, module
        if key not in self.sources:
            file = 'crates/%s/src/%s.rt' % (crate, module)
            self.sources[key] = self.once(Source, file, crate, module)
        return self.sources[key]

    def names(self, crate, folder, ending):
        """The files of a folder of a crate, by their names."""
        files = glob.glob(os.path.join(self.root, 'crates', crate, folder, '*' + ending))
        return sorted(os.path.basename(file)[:-len(ending)] for file in files)

    def all_modules(self, folder):
        return [self.module(crate, folder, name) for crate in self.crates for name in self.names(crate, folder, '.antt')]

    def all_sources(self):
        return [self.source(crate, name) for crate in self.crates for name in self.names(crate, 'src', '.rt')]

    # ---- paths of antt

    def found(self, parts, place):
        """What a whole path names."""
        if parts[0] == 'package':
            parts = parts[1:]
        if parts[0] != 'Rattle' or len(parts) < 3 or parts[1] not in self.crates:
            return Kit('.'.join(parts))
        crate, folder = parts[1:3]
        if len(parts) > 4 and parts[2:4] == ['specs', 'declared']:
            return self.declared(crate, parts[4:], place)
        for end in range(len(parts) - 1, 3, -1):
            module = self.module(crate, folder, '.'.join(parts[3:end]))
            if module:
                return self.member(module, parts[end:], place)
        raise Wrong(place, '`%s` is in no file of the repository' % '.'.join(parts))

    def member(self, module, parts, place):
        """What a module has under a name, or under a type's name and that of its part."""
        name = parts[0]
        if name in module.defined:
            return self.part(module.defined[name], parts[1:], place)
        if name in module.built and len(parts) == 1:
            return Constructor(name, module.built[name])
        if name in module.shared:
            return self.found(module.uses[name] + parts[1:], place)
        raise Wrong(place, 'no `%s` in %s' % ('.'.join(parts), module.file))

    @staticmethod
    def part(found, parts, place):
        if not parts:
            return found
        if len(parts) == 1 and any(parts[0] in names for names, _ in found.constructors):
            return Constructor(parts[0], found)
        raise Wrong(place, '`%s` has no `%s`' % (found.name, '.'.join(parts)))

    def declared(self, crate, parts, place):
        """[MODULE.]TYPE.TYPE, or [MODULE.]TYPE.TheVariants.VARIANT"""
        folders, name, last = parts[:-2], parts[-2], parts[-1]
        if name == VARIANTS:
            folders, name = parts[:-3], parts[-3]
        for module in ['.'.join(folders)] if folders else ROOTS:
            source = self.source(crate, module)
            item = source and source.defined.get(name)
            if item and parts[-2] == VARIANTS:
                return self.part(item, [last], place)
            if item and name == last:
                return item
        raise Wrong(place, '`%s` is no declared type of %s' % ('.'.join(parts), crate))

    # ---- paths of Rattle

    def typed(self, source, path, place):
        """The type or constant that a path of Rattle names in a file, None for one of the language's own."""
        if len(path) == 1 and path[0] in PRIMITIVE:
            return None
        if len(path) == 1 and path[0] in source.defined:
            return source.defined[path[0]]
        if len(path) == 1 and path[0] in source.used:
            return self.typed(source, source.used[path[0]], place)
        item = self.item(source, path, place)
        return item.defined[path[-1]]

    def item(self, source, path, place, kind='defined'):
        """The file that has what a path names."""
        if len(path) > 1:
            crate = source.crate if path[0] == 'crate' else path[0]
            inner = path[1:-1] if path[0] == 'crate' or crate in self.crates else path[:-1]
            crate = crate if crate in self.crates else source.crate
            for module in inner or ROOTS:
                there = self.source(crate, module)
                if there and path[-1] in getattr(there, kind):
                    return there
                if there and path[-1] in there.used:
                    return self.item(there, there.used[path[-1]], place, kind)
        raise Wrong(place, '`%s` is nothing that the repository declares' % '::'.join(path))
