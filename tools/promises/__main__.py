"""Writes each promise of this repository as text, with every definition that it reaches: the contracts of all exports,
and the laws and functions that docs/PROMISE.md names.

    tools/promises/run            writes docs/promises: a file for each promise, and an index
    tools/promises/run --check    compares with what is stored; each file that differs is named with the first line that
                                  does, and the status is 1
    tools/promises/run NAME       prints one promise: an export, CRATE::FUNCTION, a law, or the type of a law

It reads crates/*/src/*.rt, specs/*.antt and proofs/*.antt itself and needs no kit. Each name in a promise or in a
definition that it reaches is bound where it stands, or is a definition of the repository, or a name of the kit; any
other is an error, which says file, line and name. tokens.py and antt.py read antt, rattle.py reads Rattle, tree.py says
what a path means, terms.py what a name means in a term, reach.py what is reached, page.py what docs/PROMISE.md names,
text.py and index.py write, stored.py compares; kit.py has what has to be known of the kit, operations.py the order of the
index."""
import argparse
import os
import sys

sys.dont_write_bytecode = True

from stored import FOLDER, check, promised, stored_in, texts_of, write  # noqa: E402
from tree import Tree  # noqa: E402
from wrong import Wrong  # noqa: E402

ROOT = os.path.normpath(os.path.join(os.path.dirname(os.path.abspath(__file__)), '..', '..'))


def show(promises, name):
    """Prints the promise of a name, or the laws of a type."""
    found = [one for one in promises.values() if name in (one.name, one.typed())]
    for one in found:
        print(one.text(), end='')
    if not found:
        raise Wrong(name, 'no export, no function and no law of docs/PROMISE.md, nor the type of one')
    return True


def main():
    parser = argparse.ArgumentParser(prog='tools/promises/run', description=__doc__,
                                     formatter_class=argparse.RawDescriptionHelpFormatter)
    parser.add_argument('name', nargs='?', help='print one promise')
    parser.add_argument('--check', action='store_true', help='compare with the files')
    parser.add_argument('--root', default=ROOT, help='the repository, if it is not the one of this program')
    given = parser.parse_args()
    try:
        promises = promised(Tree(given.root))
        folder = os.path.join(given.root, FOLDER)
        stored = stored_in(folder)
        if given.name:
            done = show(promises, given.name)
        else:
            texts = texts_of(promises, stored)
            done = check(texts, stored) if given.check else write(texts, stored, folder)
    except Wrong as wrong:
        sys.exit('tools/promises: %s' % wrong)
    sys.exit(0 if done else 1)


main()
