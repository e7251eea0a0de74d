"""Small wrong changes of Rattle code: one operator, constant, comparison, field or branch of a function or a constant.

Contracts, comments and the heads of types stay as they are. Whether two things have the same type is judged by names
alone, so a change may not compile.
"""
import math
import re
import struct
from dataclasses import dataclass
from decimal import Decimal

TOKEN = re.compile(
    r"""(?P<gap>\s+|//[^\n]*)
    |(?P<text>b?"(?:\\.|[^"\\])*"|b'(?:\\.|[^'\\])')
    |(?P<float>\d[\d_]*\.\d[\d_]*(?:e[+-]?\d+)?|\d[\d_]*e[+-]?\d+)
    |(?P<int>0x[\da-fA-F_]+|\d[\d_]*)(?P<suffix>[iu](?:8|16|32|64|size))?
    |(?P<name>'?[A-Za-z_]\w*)
    |(?P<sign>\.\.=|<<=|>>=|->|=>|==|!=|<=|>=|&&|\|\||<<|>>|[-+*/%&|]=|::|\.\.|.)""",
    re.X | re.S,
)
OPEN, CLOSE = set("([{"), set(")]}")
OPERATORS = {
    "+": "- *", "-": "+ *", "*": "+ /", "/": "* %", "%": "/", "<<": ">>", ">>": "<<", "&": "|", "|": "&", "+=": "-=", "-=": "+=",
}  # fmt: skip
COMPARISONS = {"<": "<= >", "<=": "< >=", ">": ">= <", ">=": "> <=", "==": "!=", "!=": "=="}
KEYWORDS = {"if", "while", "return", "match", "else", "in", "let", "mut", "as", "for", "loop"}
KINDS = ["operator", "constant", "comparison", "field", "branch"]


@dataclass(frozen=True)
class Token:
    kind: str
    text: str
    start: int
    end: int


@dataclass(frozen=True)
class Part:
    """A function with its body, or a constant with its value: its range of tokens."""

    name: str
    first: int
    last: int
    parameters: tuple


@dataclass(frozen=True)
class Change:
    kind: str
    start: int
    end: int
    new: str


def tokens_of(code):
    found = []
    for m in TOKEN.finditer(code):
        if m.lastgroup == "suffix":
            found.append(Token("int", m[0], m.start(), m.end()))
        elif m.lastgroup != "gap":
            found.append(Token(m.lastgroup, m[0], m.start(), m.end()))
    return found


def closing(tokens, i):
    """The index of what closes the bracket at i."""
    depth = 0
    while True:
        depth += (tokens[i].text in OPEN) - (tokens[i].text in CLOSE)
        if depth == 0:
            return i
        i += 1


def pieces(tokens, first, last):
    """The ranges between the commas that are in no inner bracket."""
    found, start, i = [], first, first
    while i < last:
        if tokens[i].text in OPEN:
            i = closing(tokens, i)
        elif tokens[i].text == ",":
            found.append((start, i))
            start = i + 1
        i += 1
    return [(a, b) for a, b in found + [(start, last)] if a < b]


class Code:
    """The text of a file, as tokens."""

    def __init__(self, text):
        self.text = text
        self.tokens = tokens_of(text)

    def at(self, i):
        return self.tokens[i].text if 0 <= i < len(self.tokens) else ""

    def span(self, first, last):
        return self.text[self.tokens[first].start : self.tokens[last - 1].end]

    def typed(self, first, last):
        """The names and types of parameters or fields, in order."""
        found = []
        for a, b in pieces(self.tokens, first, last):
            while self.at(a) in ("pub", "mut"):
                a += 1
            if self.at(a + 1) == ":":
                found.append((self.at(a), self.span(a + 2, b)))
        return found

    def signature(self, i):
        """A function's parameters, and where the brackets around them are, for the `fn` at i."""
        first = i + 2
        while self.at(first) != "(":
            first += 1
        last = closing(self.tokens, first)
        return self.typed(first + 1, last), last

    def parts(self):
        found, i, block, block_end = [], 0, "", -1
        while i < len(self.tokens):
            word = self.at(i)
            if word == "ghost":
                while self.at(i) not in (";", ",", "}"):  # of a struct's ghost field a comma or a bracket is the end
                    i = closing(self.tokens, i) + 1 if self.at(i) in OPEN else i + 1
            elif word == "impl":
                block, i = self.implemented(i + 1)
                block_end = closing(self.tokens, i)
            elif word == "fn":
                parameters, last = self.signature(i)
                body = end = self.body(last + 1)
                if self.at(body) == "{":
                    end = closing(self.tokens, body)
                    name = (block if i < block_end else "") + self.at(i + 1)
                    found.append(Part(name, body + 1, end, tuple(parameters)))
                i = end
            elif word == "const" and self.at(i - 1) not in ("<", ","):
                value = i
                while self.at(value) != "=":
                    value += 1
                end = value
                while self.at(end) != ";":
                    end = closing(self.tokens, end) + 1 if self.at(end) in OPEN else end + 1
                found.append(Part(self.at(i + 1), value + 1, end, ()))
                i = end
            i += 1
        return found

    def implemented(self, i):
        """What the names of an `impl`'s functions begin with, and where its bracket opens; i is behind `impl`."""
        start = i
        while self.at(i) != "{":
            i += 1
        return re.match(r"(?:<.*?>\s+)?(?:.*\bfor\s+)?(\w+)", self.span(start, i), re.S)[1] + "::", i

    def body(self, i):
        """Where a function's body opens, past its type and its contract, or its `;` where a trait has no body of it."""
        while self.at(i) not in ("{", ";"):
            if self.at(i) in ("requires", "ensures", "ghost"):
                while self.at(i) not in OPEN:  # a clause may have a name
                    i += 1
                i = closing(self.tokens, i)
            elif self.at(i) == "[":
                i = closing(self.tokens, i)
            i += 1
        return i


class Names:
    """The fields of every struct, and the types of what every function and every case of an enum takes."""

    def __init__(self, codes):
        self.structs, self.takes = {}, {}
        for code in codes:
            for i, token in enumerate(code.tokens):
                if token.text == "fn" and code.tokens[i + 1].kind == "name":
                    parameters, _ = code.signature(i)
                    self.takes[code.at(i + 1)] = [kind for _, kind in parameters]
                elif token.text == "struct" and code.at(i + 2) == "{":
                    self.structs[code.at(i + 1)] = dict(code.typed(i + 3, closing(code.tokens, i + 2)))
                elif token.text == "enum" and code.at(i + 2) == "{":
                    self.cases(code, i + 3, closing(code.tokens, i + 2))

    def cases(self, code, first, last):
        for a, b in pieces(code.tokens, first, last):
            if code.at(a + 1) == "(":
                self.takes[code.at(a)] = [code.span(x, y) for x, y in pieces(code.tokens, a + 2, b - 1)]


def changes(code, part, names):
    """Every change of a part, by kind."""
    found = {kind: [] for kind in KINDS}
    for i in range(part.first, part.last):
        for finder in (operators, constants, comparisons, fields, literals, calls, parameters, branches, arms):
            for change in finder(code, part, names, i):
                found[change.kind].append(change)
    return found


def is_binary(code, i):
    before = code.tokens[i - 1]
    return before.kind in ("int", "float") or before.text in (")", "]") or (before.kind == "name" and before.text not in KEYWORDS)


def operators(code, part, names, i):
    token = code.tokens[i]
    if token.kind == "sign" and token.text in OPERATORS and is_binary(code, i):
        for new in OPERATORS[token.text].split():
            yield Change("operator", token.start, token.end, new)
    elif token.text == "-" or (token.text == "!" and code.at(i + 1) != "="):
        yield Change("operator", token.start, token.end, "")


def comparisons(code, part, names, i):
    token = code.tokens[i]
    for new in COMPARISONS.get(token.text, "").split():
        yield Change("comparison", token.start, token.end, new)


def constants(code, part, names, i):
    token = code.tokens[i]
    news = []
    if token.kind == "int" and code.at(i - 1) != ".":
        news = whole_numbers(token.text)
    elif token.kind == "float":
        inside = code.span(part.first, part.last) + str(part.parameters)
        news = floats(token.text, "f32" in inside and "f64" not in inside)
    elif token.kind == "text":
        quote, rest = re.fullmatch(r"(b?['\"])(.*)", token.text, re.S).groups()
        news = [quote + re.sub(r"[ -!#-Z^-z]", lambda m: chr(ord(m[0]) + 1), rest, count=1)]
    elif token.text in ("true", "false"):
        news = ["false" if token.text == "true" else "true"]
    for new in news:
        if new != token.text:
            yield Change("constant", token.start, token.end, new)


def whole_numbers(text):
    digits, suffix = re.fullmatch(r"(0x[\da-fA-F_]+|[\d_]+)(\w*)", text).groups()
    value = int(digits.replace("_", ""), 0)
    show = hex if digits.startswith("0x") else str
    return [show(n) + suffix for n in sorted({0, 1, value - 1, value + 1} - {value}) if n >= 0]


def floats(text, narrow):
    """The sign, the last bit, and 1 or 0."""
    value = float(text.replace("_", ""))
    if value == 0:
        return ["-0.0", "1.0"]
    if narrow:
        bits = struct.unpack("<I", struct.pack("<f", value))[0]
        near = [struct.unpack("<f", struct.pack("<I", bits + d))[0] for d in (-1, 1)]
    else:
        near = [math.nextafter(value, 0), math.nextafter(value, math.inf)]
    shown = [format(Decimal(repr(x)), "f") for x in near]
    return [x if "." in x else x + ".0" for x in shown] + ["-" + text, "0.0"]


def fields(code, part, names, i):
    """Another field of the same type."""
    token = code.tokens[i]
    if code.at(i - 1) != "." or token.kind != "name" or code.at(i + 1) == "(":
        return
    others = set()
    for held in names.structs.values():
        others |= {f for f, kind in held.items() if kind == held.get(token.text) and f != token.text}
    for new in sorted(others):
        yield Change("field", token.start, token.end, new)


def literals(code, part, names, i):
    """The values of two fields of the same type exchanged, where a struct is made."""
    held = names.structs.get(code.at(i))
    if not held or code.at(i + 1) != "{":
        return
    values = {}
    for a, b in pieces(code.tokens, i + 2, closing(code.tokens, i + 1)):
        values[code.at(a)] = (a, b, code.span(a + 2, b) if code.at(a + 1) == ":" else code.at(a))
    for f, (a, b, value) in values.items():
        for g, (c, d, other) in values.items():
            if a < c and held.get(f) == held.get(g) and value != other:
                yield exchanged(code, (a, b), (c, d), f"{f}: {other}", f"{g}: {value}")


def exchanged(code, one, two, first, second, kind="field"):
    """A change of two ranges, and of nothing between them."""
    start, end = code.tokens[one[0]].start, code.tokens[two[1] - 1].end
    between = code.text[code.tokens[one[1] - 1].end : code.tokens[two[0]].start]
    return Change(kind, start, end, first + between + second)


def calls(code, part, names, i):
    """Two arguments of the same type exchanged, or one in the place of the other."""
    kinds = names.takes.get(code.at(i))
    if not kinds or code.at(i + 1) != "(" or code.at(i - 1) == "fn":
        return
    given = pieces(code.tokens, i + 2, closing(code.tokens, i + 1))
    if len(given) != len(kinds):
        return
    for j, one in enumerate(given):
        for k, two in enumerate(given):
            first, second = code.span(*one), code.span(*two)
            if j < k and kinds[j] == kinds[k] and first != second:
                yield exchanged(code, one, two, second, first)
                yield exchanged(code, one, two, first, first)
                yield exchanged(code, one, two, second, second)


def parameters(code, part, names, i):
    """Another parameter of the same type."""
    token, known = code.tokens[i], dict(part.parameters)
    if token.text not in known or code.at(i - 1) in (".", "let", "mut", "::") or code.at(i + 1) in (":", "::", "("):
        return
    alone = code.at(i - 1) in ("{", ",") and code.at(i + 1) in (",", "}")
    for new, kind in part.parameters:
        if kind == known[token.text] and new != token.text:
            yield Change("field", token.start, token.end, f"{token.text}: {new}" if alone and in_literal(code, names, i) else new)


def in_literal(code, names, i):
    depth = 0
    while i >= 0:
        depth += (code.at(i) in CLOSE) - (code.at(i) in OPEN)
        if depth < 0:
            return code.at(i) == "{" and code.at(i - 1) in names.structs
        i -= 1
    return False


def branches(code, part, names, i):
    """A condition negated, and a return dropped."""
    word, last = code.at(i), i + 1
    if word in ("if", "while") and code.at(i + 1) != "let":
        while code.at(last) != "{":
            last = closing(code.tokens, last) + 1 if code.at(last) in ("(", "[") else last + 1
        condition = code.span(i + 1, last)
        yield Change("branch", code.tokens[i + 1].start, code.tokens[last - 1].end, f"!({condition})")
    elif word == "return":
        while code.at(last) not in (";", ",", "}"):
            last = closing(code.tokens, last) + 1 if code.at(last) in OPEN else last + 1
        if code.at(last) == ";":
            yield Change("branch", code.tokens[i].start, code.tokens[last].end, "")


def arms(code, part, names, i):
    """The results of two arms of a match exchanged."""
    if code.at(i) != "match":
        return
    start = i + 1
    while code.at(start) != "{":
        start = closing(code.tokens, start) + 1 if code.at(start) in ("(", "[") else start + 1
    results, a, end = [], start + 1, closing(code.tokens, start)
    while a < end:
        while code.at(a) != "=>":
            a = closing(code.tokens, a) + 1 if code.at(a) in OPEN else a + 1
        b = a + 1
        while b < end and code.at(b) != ",":
            block = code.at(b) == "{" and b == a + 1
            b = closing(code.tokens, b) + 1 if code.at(b) in OPEN else b + 1
            if block:
                break
        results.append((a + 1, b))
        a = b + (code.at(b) == ",")
    for j, one in enumerate(results):
        for two in results[j + 1 :]:
            if code.span(*one) != code.span(*two):
                yield exchanged(code, one, two, code.span(*two), code.span(*one), "branch")
