"""Which refusals of an edit count. Every recorded verdict rests on this file, so its sum is part of the record's.

`rt must-fail` says of each edit that it is refused, with the first error, that it is still proved (NOT REFUSED), or
that it cannot be applied, compiled or read (BAD EDIT). A refusal counts if its first error says that a fact cannot be
had (FACTS): nothing proves it, or what is proved differs from what is wanted at a goal or a law that is named. It
does not count if the prover only reaches a limit of its own, or if a proof names what the edit took away (SHAPE):
such an error comes of any change of the calls, tests and variables, also of a right one. Any other error is one that
nobody has looked at yet, and does not count. No rule over the prover's words can tell that an edit is wrong: whoever
writes one keeps the calls, tests and variables, alters an answer, and reads the error."""
import re

SHOWN = 200

TOLD = re.compile(r"^rt: must-fail (\w+)/(\S+\.edit): (.*\n(?:(?!rt: ).*\n)*)", re.MULTILINE)
REFUSED = re.compile(r"refused, as it must be(?: \((only [^)]*)\))?(?:: (.*))?", re.DOTALL)
FACTS = re.compile(
    r"""it\ is\ not\ proved\ that\ 
    | :\ error:\ `[^`]*`:\ """,
    re.VERBOSE,
)
SHAPE = re.compile(
    r"""has\ no\ `
    | has\ no\ field
    | is\ not\ in\ scope
    | was\ not\ admitted
    | `(Inv|μ)-""",
    re.VERBOSE,
)


def told(said):
    """What rt says of each edit, by its crate and the name of its file."""
    return {(crate, name): words.strip() for crate, name, words in TOLD.findall(said)}


def judged(words):
    """Whether an edit counts as refused, and the first error or why it does not count."""
    refused = REFUSED.match(words)
    if not refused:
        return False, words
    only, first = refused.groups()
    first = (first or "without an error").removeprefix("note: ").removeprefix("./")
    if only and "limit" in only:
        return False, f"a limit: {first}"
    if only or SHAPE.search(first):
        return False, f"the proof does not fit the code: {first}"
    if not FACTS.search(first):
        return False, f"refused by an error of an unknown kind: {first}"
    return True, first


def shown(why):
    """The words as they are printed and recorded: on one line, and cut."""
    return " ".join(why.split())[:SHOWN]
