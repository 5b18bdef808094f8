"""The words of antt. A name is any run of characters but spaces and ( ) { } . ; , @ " « »; a dot inside a run makes a
path, a dot before one a projection, and a dot before a space ends the binders of a λ."""
import re

from wrong import Wrong

APART = '(){}.;,@"«»'
NUMERAL = re.compile(r'(0x[0-9A-Fa-f_]+|0o[0-7_]+|0b[01_]+|[0-9][0-9_]*)$')
OPENERS = {'(': ')', '{': '}'}
RESERVED = set("""data record deriving module where use mod pub package using open as unfoldable abbrev axiom unfold
unfolding ruleset mutual infix infixl infixr elim let in do λ ∀ Type 𝕀 𝔽 coe fcoe tcoe hcom com V vin vproj inS outS
∨ ∧""".split())


class Token:
    """One word: its kind, its text, the parts of a path, and where it stands."""

    def __init__(self, kind, text, file, line):
        self.kind, self.text, self.file, self.line = kind, text, file, line
        self.parts = [text]

    def place(self):
        return '%s:%d' % (self.file, self.line)

    def __repr__(self):
        return '%s %s' % (self.kind, self.text)


class Group:
    """What stands between a pair of brackets."""

    def __init__(self, opener, items):
        self.kind, self.text, self.opener, self.items = 'group', opener.text, opener, items

    def place(self):
        return self.opener.place()

    def has(self, text):
        """Whether a bare word stands directly between the brackets."""
        return any(item.kind == 'name' and item.text == text for item in self.items)


def escaped(name):
    """A name as it is written where it is not to be read as a reserved word."""
    return '«%s»' % name if name in RESERVED else name


def word(text, at):
    """The end of the name that begins at `at`, and the name: `«x»` is `x`."""
    if text[at] == '«':
        end = text.index('»', at)
        return end + 1, escaped(text[at + 1:end])
    end = at
    while end < len(text) and not text[end].isspace() and text[end] not in APART:
        end += 1
    return end, text[at:end]


def starts_word(text, at):
    return at < len(text) and not text[at].isspace() and (text[at] not in APART or text[at] == '«')


def after_dot(text, at, tokens, file, line, tight):
    """The end of what the dot at `at` makes."""
    if not starts_word(text, at + 1):
        tokens.append(Token('dot', '.', file, line))
        return at + 1
    end, name = word(text, at + 1)
    if tight and tokens[-1].kind in ('name', 'projection'):
        tokens[-1].parts.append(name)
    elif not tight or tokens[-1].text == ')':
        tokens.append(Token('projection', name, file, line))
    else:
        raise Wrong('%s:%d' % (file, line), 'a dot behind `%s`' % tokens[-1].text)
    return end


def in_line(text, file, line):
    """The words of one line, without its comment."""
    tokens, at = [], 0
    while at < len(text):
        sign = text[at]
        if sign.isspace():
            at += 1
        elif sign == '.':
            at = after_dot(text, at, tokens, file, line, at > 0 and not text[at - 1].isspace())
        elif sign in '(){};,':
            tokens.append(Token('sign', sign, file, line))
            at += 1
        elif sign in '@"':
            raise Wrong('%s:%d' % (file, line), '`%s` is not read by this program' % sign)
        else:
            if text.startswith('--', at):
                break
            end, name = word(text, at)
            tokens.append(Token('numeral' if NUMERAL.match(text[at:end]) else 'name', name, file, line))
            at = end
    return tokens


def tokens_of(lines, file):
    """The words of (number, text) lines."""
    return [token for number, text in lines for token in in_line(text, file, number)]


def grouped(tokens):
    """The words with what stands in brackets as groups."""
    stack = [(None, [])]
    for token in tokens:
        if token.kind == 'sign' and token.text in OPENERS:
            stack.append((token, []))
        elif token.kind == 'sign' and token.text in ')}':
            opener, items = stack.pop()
            if opener is None or OPENERS[opener.text] != token.text:
                raise Wrong(token.place(), 'a bracket that nothing opens')
            stack[-1][1].append(Group(opener, items))
        else:
            stack[-1][1].append(token)
    if len(stack) > 1:
        raise Wrong(stack[-1][0].place(), 'a bracket that nothing closes')
    return stack[0][1]


def split(items, *signs):
    """The items between the given signs."""
    parts = [[]]
    for item in items:
        if item.kind in ('sign', 'name') and item.text in signs:
            parts.append([])
        else:
            parts[-1].append(item)
    return parts
