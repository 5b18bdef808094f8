"""The index of the promises."""
import re
import subprocess

from operations import OPERATIONS
from wrong import Wrong

HEAD = '''# All that has to be believed

One file for each promise: the contract of each export, the contract of each function that [PROMISE](../PROMISE.md)
names, and the type of each law that it names. A file has the promise, every definition of this repository that it
reaches, and the names of the kit that these use. To know what is promised you need to read nothing else.

There are %(count)s files, with %(reached)s different definitions. The longest is [%(longest)s](%(file)s), with %(lines)s
lines; half of the files have fewer than %(middle)s.

`tools/promises/run` writes the files from crates/, and the gate compares them (`tools/promises/run --check`). If
`git diff` of this folder is empty, no promise has moved. If it is not, the diff shows what moved.

## How to read a file

- A contract is `ensures { .. }`: what is between the brackets holds of the `result`, whatever the arguments. Of a list
  or struct x that is lent to be read `x.now` is what it holds; of one that is lent to be written `x.old` is what it
  holds when the call begins, `x.new` what it holds when the call has returned. A word behind `ensures` names the
  clause. No contract here has a condition that the caller must meet.
- A law is a name and its type. The type is the statement; the proof is not shown.
- The definitions come by file, a file before those that it uses, and in a file each definition before those that it
  uses. A heading says where they are: `` `grid` specs/Settings `` is crates/grid/specs/Settings.antt, and
  `` `grid` src/lib `` is crates/grid/src/lib.rt.
- A name means the definition of that name in the file at hand, or the kit's. Where a name is declared under another
  one, or where two things of a file have one name, a line below the heading (`Here`) says which is meant.
- The comment and all clauses of a definition are shown. Marks and lines that say who may name or unfold it (`pub`,
  `abbrev`, `unfoldable`, `unfolding`) are left out: they do not alter what it is.
- A struct or an enum is shown as the code declares it. In the logic it is a record or a data type with the same fields
  or variants. An unsigned integer is a natural number, a signed one an integer, a float is a `Float`; an array or a
  slice is a list.

## The boundary

The kit is the boundary: its prelude, its libraries (`Prim`, `Rattle.std`) and its logic. A file ends with the names
that it takes from there, by their paths, without their text. They are those of this kit:

    %(kit)s

How Rattle reads a contract and checks a proof is the kit's too. What else is trusted is in
[PROMISE](../PROMISE.md#what-is-trusted).

## By operation

| operation | contracts | laws |
|---|---|---|
'''
TAIL = '''
The types of the laws, where they are names:

| law | type |
|---|---|
'''
NAMED = re.compile(r'    (.*)\n\nHow Rattle')


def kit(stored):
    """The kit's id; where there is no kit, the one that is stored."""
    try:
        return subprocess.run(['rt', 'version'], capture_output=True, text=True, check=True).stdout.strip()
    except (OSError, subprocess.CalledProcessError):
        found = NAMED.search(stored)
        return found.group(1) if found else 'unknown'


def links(names, promises):
    return ', '.join('[%s](%s)' % (name, promises[name].file) for name in names.split())


def complete(promises):
    """Each promise is listed once, and nothing else is."""
    listed = [name for _, contracts, laws in OPERATIONS for name in contracts.split() + laws.split()]
    for name in sorted(set(promises) ^ set(listed)) + [name for name in listed if listed.count(name) > 1]:
        raise Wrong('tools/promises/operations.py', '`%s` is %s' % (
            name, 'not listed' if name not in listed else 'listed and not promised, or listed twice'))


def index(promises, texts, stored):
    complete(promises)
    lengths = sorted((texts[one.file].count('\n'), one.name) for one in promises.values())
    lines, longest = lengths[-1]
    reached = {found.key() for one in promises.values() for found in one.reached.items[1:]}
    text = HEAD % {'count': len(promises), 'reached': len(reached), 'longest': longest, 'lines': lines,
                   'file': promises[longest].file, 'middle': lengths[len(lengths) // 2][0], 'kit': kit(stored)}
    for title, contracts, laws in OPERATIONS:
        text += '| %s | %s | %s |\n' % (title, links(contracts, promises), links(laws, promises))
    typed = [one for one in promises.values() if one.typed()]
    rows = ['| [%s](%s) | `%s` |\n' % (one.name, one.file, one.typed()) for one in typed]
    return text + TAIL + ''.join(rows)
