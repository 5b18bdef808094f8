"""Another reading of the sources, by words alone: a declaration uses what its file declares or brings in under a word that
it has. It knows no binders, so where one is spelled like such a name it says more than tools/promises, and never less."""
import glob
import os
import re

MARKS = r'(?:(?:pub|abbrev|unfoldable) )*'
HEAD = re.compile(MARKS + r'((?:record|data) )?([^\s(){}.;,:@"«»]+)(?: \{[^}:]*\})?(?: [({].*)? :(?: |$)')
WORD = re.compile(r'[^\s(){}.;,:@"«»\[\]&]+')
USE = re.compile(r'^(?:ghost |unfoldable )?(?:pub )?use ([^\s{]+)\.\{([^}]*)\}', re.M)


class Words:
    """For each (file, name) the words of its declaration; for each file what its words mean."""

    def __init__(self, root):
        self.root, self.inside, self.means, self.law = root, {}, {}, False
        for path in sorted(glob.glob(os.path.join(root, 'crates/*/specs/*.antt'))
                           + glob.glob(os.path.join(root, 'crates/*/proofs/*.antt'))):
            self.antt(os.path.relpath(path, root), self.bare(path))
        for path in sorted(glob.glob(os.path.join(root, 'crates/*/src/*.rt'))):
            self.rattle(os.path.relpath(path, root), self.bare(path))

    @staticmethod
    def bare(path):
        with open(path, encoding='utf-8') as opened:
            return re.sub(r'(?<!\S)--.*|//.*', '', opened.read())

    def antt(self, file, text):
        self.means[file] = self.brought(text)
        current, block, shape = None, False, False
        for line in text.split('\n'):
            if line and not line[0].isspace():
                block = line.startswith('module')
            head = HEAD.match(line[2:] if block and line[:2] == '  ' else line)
            inner = shape and re.match(r' +(' + MARKS + r')([^\s(){}.;,:@"«»]+(?: [^\s(){}.;,:@"«»]+)*) : ', line)
            if head and head.group(2) != 'module':
                current, shape = head.group(2), head.group(1)
                self.means[file][current] = file, current
                self.law = '/proofs/' in file and not shape
            elif inner and shape == 'data ':
                self.means[file].update((name, (file, current)) for name in inner.group(2).split())
            clause = self.law and not head and current in line.split()[:1]
            current = None if clause else current
            if current and not re.match(r'\s*(unfolding|module) ', line):
                self.inside.setdefault((file, current), set()).update(WORD.findall(line))

    def rattle(self, file, text):
        crate = file.split('/')[1]
        self.means[file] = self.brought(text)
        for path, names in re.findall(r'^(?:pub(?:\(crate\))? )?use (\w+)::([^;]*);', text, re.M):
            for name in re.findall(r'\b[A-Z]\w*', names):
                self.means[file][name] = ('use', path.replace('crate', crate, 1), name)
        for found in re.finditer(r'^(?:pub )?(?:struct|enum) (\w+)(?:<[^>]*>)?\s*(\{[^}]*\}|\([^)]*\))', text, re.M):
            self.means[file][found.group(1)] = file, found.group(1)
            self.inside[file, found.group(1)] = set(re.findall(r'\w+', found.group(2)))
        for found in re.finditer(r'\bfn (\w+)(.*?)\n\}', text, re.S):
            head = found.group(2).split('\n{')[0] if '\n{' in found.group(2) else found.group(2).split(' {')[0]
            self.inside[file, 'fn ' + found.group(1)] = set(WORD.findall(head))

    @staticmethod
    def brought(text):
        """What the names of the use lines mean: a file and a name there."""
        found = {}
        for path, names in USE.findall(text):
            crate = re.match(r'Rattle\.(\w+)\.(specs|proofs)\.(.*)', path)
            for item in names.split(','):
                name, _, alias = item.strip().partition(' as ')
                if crate and not crate.group(3).startswith('declared.'):
                    home = 'crates/%s/%s/%s.antt' % (crate.group(1), crate.group(2), crate.group(3).replace('.', '/'))
                    found[alias or name] = home, name
                elif crate:
                    parts = [part for part in crate.group(3).split('.')[1:] if part != 'TheVariants']
                    found[alias or name] = 'use', crate.group(1), parts[-1]
        return found

    def target(self, found):
        """The declaration that a name means: through what a file passes on, and declared types by crate and name."""
        if found[0] == 'use':
            return next(((file, name) for file, name in self.inside
                         if name == found[2] and file.startswith('crates/%s/src/' % found[1])), None)
        if found in self.inside:
            return found
        passed = self.means.get(found[0], {}).get(found[1])
        return self.target(passed) if passed and passed != found else None

    def reached(self, start):
        """All declarations that can be followed from one."""
        found, left = set(), [start]
        while left:
            file, name = left.pop()
            means = self.means[file]
            for word in self.inside[file, name]:
                for spelled in [word] + [one for one in means if '◌' in one and word in one.split('◌')]:
                    target = spelled in means and self.target(means[spelled])
                    if target and target not in found:
                        found.add(target)
                        left.append(target)
        return found - {start}
