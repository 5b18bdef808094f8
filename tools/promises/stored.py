"""All promises of a tree, their texts, and the files that are stored."""
import glob
import itertools
import os

from index import index
from page import Page
from reach import Graph, Reached
from text import Promise
from wrong import Wrong

FOLDER = 'docs/promises'


def promised(tree):
    """All promises by name: exports, functions that the page names, laws."""
    graph, page, found = Graph(tree), Page(tree), {}
    exports = [(name, source.function(name)) for source in tree.all_sources() for name in source.exports()]
    functions = [('%s::%s' % (one.source.crate, one.name), one) for one in page.functions]
    for name, one in exports + functions + [(law.name, law) for law in page.laws]:
        if name in found:
            raise Wrong(one.where(), 'two promises have the name `%s`' % name)
        found[name] = Promise(name, Reached(graph, one))
    return found


def texts_of(promises, stored):
    texts = {one.file: one.text() for one in promises.values()}
    texts['README.md'] = index(promises, texts, stored.get('README.md', ''))
    return texts


def stored_in(folder):
    """The files that are stored, by their names in the folder."""
    found = {}
    for path in glob.glob(os.path.join(folder, '**', '*'), recursive=True):
        if os.path.isfile(path):
            with open(path, encoding='utf-8') as opened:
                found[os.path.relpath(path, folder)] = opened.read()
    return found


def difference(wanted, found):
    """The number of the first line in which two texts differ, None where they are equal."""
    pairs = itertools.zip_longest(wanted.split('\n'), found.split('\n'))
    return next((line for line, (one, other) in enumerate(pairs, 1) if one != other), None)


def check(texts, stored):
    """Names each file that differs; whether there is none."""
    wrong = []
    for file in sorted(set(texts) | set(stored)):
        if file not in texts or file not in stored:
            wrong.append('%s/%s: %s' % (FOLDER, file, 'missing' if file in texts else 'no promise has this name'))
        elif texts[file] != stored[file]:
            line = difference(texts[file], stored[file])
            now = (texts[file].split('\n') + [''])[line - 1:line]
            wrong.append('%s/%s: line %d differs, now: %s' % (FOLDER, file, line, ''.join(now).strip()))
    for line in wrong:
        print(line)
    print('tools/promises: %d of %d files differ' % (len(wrong), len(texts)))
    return not wrong


def write(texts, stored, folder):
    for file in sorted(set(stored) - set(texts)):
        os.remove(os.path.join(folder, file))
        print('tools/promises: %s/%s removed' % (FOLDER, file))
    for file, text in sorted(texts.items()):
        if stored.get(file) != text:
            os.makedirs(os.path.dirname(os.path.join(folder, file)), exist_ok=True)
            with open(os.path.join(folder, file), 'w', encoding='utf-8') as opened:
                opened.write(text)
            print('tools/promises: %s/%s written' % (FOLDER, file))
    return True
