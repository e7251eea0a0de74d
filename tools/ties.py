"""What ties the promises together: contracts, theorems that two outcomes are equal, the calls, and wrong programs.

A public function of a library crate has one `ensures` and no `requires`; a function that a `pub trait` declares is one.
Its theorem is the one in its crate's proofs/Unique.antt that has its name (`set_phase_unique` for `set_phase`), or the
one that SHARED names. The theorem has two hypotheses. Each is the contract's formula with other names: every variable
of the theorem stands for one and the same piece of the formula in both hypotheses, but for the variables of the outcome
(the result, and what is left in each lent buffer): there are two of each, and the conclusion says that each two are
equal. Two variables stand for two pieces, and everything that the function takes is in the formula: of a lent buffer,
what it held or what is left in it.

The table under "The calls" in docs/PROMISES.md is written by hand. A row has a function, its kind, what its contract
must say behind `≡`, with x for `x.now` and `x.old`, and the file of each definition in that, in order. A public
function that has no row is a helper.

A static library exports functions of another crate under their names: each must have that one's parameters, result and
contract, word for word, and call it.
"""
import hashlib
import re
import sys
from pathlib import Path
from typing import NamedTuple

sys.path.insert(0, str(Path(__file__).resolve().parent))
from wrong import FORM  # noqa: E402

ROOT = Path(__file__).resolve().parent.parent
PROMISES = "docs/PROMISES.md"
KINDS = ("call of 01", "call of 02", "ported, answers nothing", "addition")
HELPER = "helper"

# Two widths that share a theorem; every other function has its own.
SHARED = {
    "words::u32_at": "word_at_unique",
    "words::u64_at": "word_at_unique",
    "words::f32_of": "of_bits_unique",
    "words::f64_of": "of_bits_unique",
    "words::f32_bits": "to_bits_unique",
    "words::f64_bits": "to_bits_unique",
    "pitch::frequency_of_f64": "frequency_of_unique",
    "voice::velocity_of_f64": "velocity_of_unique",
}

# Comments and texts are skipped, so that a brace or a word in them is no code.
TOKEN = re.compile(
    r"//[^\n]*|/\*.*?\*/|\"(?:\\.|[^\"\\])*\"|'(?:\\[^']+|[^'\\])'"
    r"|(?P<open>\bpub\s+)?\btrait\s+(?P<declares>\w+)|\bghost\s+(?P<ghost>\w+)\s*[:=]\s*(?=\{)"
    r"|\bimpl\b\s*(?:<[^>]*>)?\s*(?:(?P<trait>\w+)(?:<[^{}]*?>)?\s+for\s+)?(?P<type>\w+)|\bmod\s+(?P<mod>\w+)(?=\s*\{)"
    r"|(?P<pub>\bpub\s+(?:(?:const|unsafe)\s+)*)?(?P<extern>\bextern\s+\"C\"\s+)?\bfn\s+(?P<fn>\w+)|(?P<brace>[{}])",
    re.S,
)
COMMENT = re.compile(r"//[^\n]*|/\*.*?\*/", re.S)
BODY = re.compile(r"\n\{\n(.*?)\n\}\n", re.S)
TYPES = re.compile(r"(?:<(?:[^<>]|->|<[^<>]*>)*>)?")
ARROW = re.compile(r"\s*->.*?(?=\s*(?:\b(?:ensures|requires)\b|\{))", re.S)
CLAUSE = re.compile(r"\s*(?P<key>\w+)(?: \w+)?\s*\{")
USE = re.compile(r"^(?:ghost )?use ([^\s{};]+?)(?:\.\{([^}]*)\}| as (\S+?))?;?$", re.M)
SIGNATURE = r"(?:(?:pub|abbrev|unfoldable) )+(?:(?:record|data) )?(?:pub )?"
DECLARATION = re.compile(rf"^{SIGNATURE}(\S+) ?(?=[:({{])", re.M)
THEOREM = re.compile(r"^pub (\S+_unique) :(.*?)^\1(?= |$)", re.S | re.M)
# Traits of std whose function is a conversion, and the ghost member that says what it gives, just above the function.
CONVERSIONS = ("From", "TryFrom")
GIVES = re.compile(r"ghost (?:try_)?from_gives = \{ λ (?P<taken>\w+) (?P<given>\w+)\. (?P<says>[^{}]*) \};\s*fn \w+\Z", re.S)
OPEN, CLOSE = "({", ")}"
RESULT = "the result"  # no parameter has such a name
PLAIN = {"×", "→"}  # words of the logic itself
EQUALS = ("logic mathlib.Core.Path", "◌≡◌")
MEMBER = "a ghost member"  # where a contract cites one: what each `impl` says of it is in no file of specs/
# Where the logic declares what std passes on under names of its own; the theorems name it there.
PRELUDE = {
    "◌≡◌": "mathlib.Core.Path",
    "T": "lib.Dec",
    **dict.fromkeys(("true", "false", "cond", "not", "◌&&◌"), "mathlib.Core.Bool"),
    **dict.fromkeys(("List", "◌∷◌", "◌++◌", "map"), "mathlib.Core.List"),
    **dict.fromkeys(("length", "take", "drop"), "lib.ListN"),
    **dict.fromkeys(("ℕ", "◌+◌", "◌-◌", "◌*◌", "◌<◌", "◌≤◌", "◌^◌"), "Prim.Native.Nat"),
}


# What a clause may say without a `ghost use`, as code without a `use`.
ALWAYS = {name: ("logic Rattle.std.specs.Prelude", name) for name in ("Ok", "Err", "Some", "None")}


class Function(NamedTuple):
    name: str  # crate::Type::function, crate::Trait::function or crate::module::function
    file: str
    types: list  # its type parameters, whose bounds have ghost members
    members: list  # the ghost members of its own trait
    takes: list  # the names of what it takes
    seen: list  # those that are references
    lent: list  # those of these that it may change
    answers: bool  # whether it has a result
    clauses: list  # key and text


def texts_of(root=ROOT):
    """Every text that is looked at, by its path."""
    kinds = ("src/**/*.rt", "specs/**/*.antt", "proofs/Unique.antt", "must-fail/*.edit", "wrong/*.edit")
    found = [f for kind in kinds for f in root.glob(f"crates/*/{kind}")]
    found += [root / "crates.txt", root / PROMISES]
    return {f.relative_to(root).as_posix(): f.read_text("utf-8") for f in found}


def crates(texts):
    """The library crates, in the order of crates.txt."""
    return [name for name, kind in listed(texts) if not kind and f"crates/{name}/src/lib.rt" in texts]


def listed(texts):
    """The name and the kind of each crate of crates.txt: `staticlib`, or nothing."""
    lines = [line.split("#")[0] for line in texts["crates.txt"].splitlines()]
    return [(*line.split(":")[0].split(), "")[:2] for line in lines if ":" in line]


def paths(texts, crate, folder):
    return sorted(path for path in texts if path.startswith(f"crates/{crate}/{folder}/"))


# ---- the code


def scanned(text):
    """Every function and ghost member of a file, with the modules, types and traits in which it stands."""
    scopes, ahead = [], None
    for token in TOKEN.finditer(text):
        if token["type"] or token["mod"] or token["declares"]:
            ahead = token
        elif token["brace"] == "{":
            scopes.append(ahead)
            ahead = None
        elif token["brace"] == "}" and scopes:
            scopes.pop()
        elif token["fn"] or token["ghost"]:
            yield token, [scope for scope in scopes if scope]


def functions(texts, crate):
    """Name, whether it is public or exported, file, and where its text begins, of every function of a crate."""
    for path in paths(texts, crate, "src"):
        parts = path.removesuffix(".rt").split("/")[3:]
        modules = [] if parts == ["lib"] else parts
        for token, scopes in scanned(texts[path]):
            if token["fn"]:
                kind = [s["type"] or s["declares"] for s in scopes if s["type"] or s["declares"]]
                inner = [s["mod"] for s in scopes if s["mod"]]
                name = "::".join([crate, *(kind or modules + inner), token["fn"]])
                is_open = any(s["open"] or s["trait"] in CONVERSIONS for s in scopes)
                yield name, bool(token["pub"] or token["extern"] or is_open), path, token.end()


def public(texts, crate):
    for name, is_public, path, start in functions(texts, crate):
        if is_public:
            function = signature(name, path, COMMENT.sub("", texts[path][start:]))
            trait = name.split("::")[-2]
            if f"trait {trait}" in texts[path]:
                function = function._replace(members=list(members(texts[path], trait)))
            yield function if function.clauses else function._replace(clauses=conversion(function, texts[path][:start]))


def members(text, only=None):
    """The ghost members of the traits of a file, or of one that it declares: all that the file says of each."""
    text, found = COMMENT.sub("", text), {}
    for token, scopes in scanned(text):
        if not token["ghost"] or not scopes:
            continue
        trait, of = scopes[-1]["declares"] or scopes[-1]["trait"], scopes[-1]["type"]
        if trait and only in (None, scopes[-1]["declares"]):
            says = " ".join(text[token.end() + 1 : closing(text, token.end())].split())
            found.setdefault(token["ghost"], []).append(f"{trait} of {of}: {says}")
    return {name: "; ".join(said) for name, said in found.items()}


def conversion(function, before):
    """The contract of a conversion: the ghost member above it, at what it takes and its result."""
    held = GIVES.search(before)
    if not held or len(function.takes) != 1:
        return []
    meant = {held["taken"]: function.takes[0], held["given"]: "result"}
    return [("ensures", re.sub(r"(?<![\w.])\w+", lambda word: meant.get(word[0], word[0]), " ".join(held["says"].split())))]


def closing(text, start):
    """Where the bracket that opens at start closes."""
    pairs, depth = dict(zip("([{", ")]}")), []
    for i in range(start, len(text)):
        if text[i] in pairs:
            depth.append(pairs[text[i]])
        elif depth and text[i] == depth[-1]:
            depth.pop()
            if not depth:
                return i
    raise ValueError(f"nothing closes {text[start:start + 60]!r}")


def signature(name, path, text):
    """What a function takes and promises; text begins after its name."""
    types = re.findall(r"(\w+):", TYPES.match(text)[0])
    text = text[TYPES.match(text).end() :]
    end = closing(text, text.index("("))
    takes, seen, lent, depth, piece = [], [], [], 0, ""
    for sign in text[text.index("(") + 1 : end] + ",":
        depth += (sign in "([<") - (sign in ")]>")
        if sign == "," and depth == 0:
            given, _, kind = piece.strip().partition(":")
            if given in ("&self", "&mut self"):
                given, kind = "self", given
            if given:
                takes.append(given.removeprefix("mut ").strip())
                seen += [takes[-1]] if kind.strip().startswith("&") else []
                lent += [takes[-1]] if kind.strip().startswith("&mut") else []
            piece = ""
        else:
            piece += sign
    at, answers, clauses = end + 1, False, []
    if arrow := ARROW.match(text, at):
        at, answers = arrow.end(), True
    while clause := CLAUSE.match(text, at):
        end = closing(text, clause.end() - 1)
        clauses.append((clause["key"], " ".join(text[clause.end() : end].split())))
        at = end + 1
    return Function(name, path, types, [], takes, seen, lent, answers, clauses)


def formula(function):
    """The text of the one contract. ValueError where there is none, or more."""
    keys = [key for key, _ in function.clauses]
    for key in keys:
        if key != "ensures":
            raise ValueError(f"it has a `{key}`")
    if len(keys) != 1:
        raise ValueError(f"it has {len(keys)} `ensures`, and not one")
    return function.clauses[0][1]


# ---- names


def module(path):
    """The file of a module of the project, `declared` for the types of the code, or the logic's own name."""
    found = re.fullmatch(r"Rattle\.(\w+)\.(.*)", path)
    if not found or found[1] == "std":
        return f"logic {re.sub(r'^Rattle.std.specs.Float(.Ieee)?(?=[.]|$)', 'lib.Ieee', path)}"
    crate, rest = found.groups()
    if rest.startswith("specs.declared."):
        return f"declared {crate}.{rest.removeprefix('specs.declared.')}"
    return f"crates/{crate}/{rest.replace('.', '/')}.antt"


def place_of(path, name):
    """The module of a name that a file imports."""
    return module(PRELUDE.get(name, path) if path in ("Rattle.std.specs.Prelude", "Rattle.std.proofs.Common") else path)


class Names:
    """What the words of a file stand for."""

    def __init__(self, text, own=()):
        self.known, self.aliases = {**ALWAYS, **{name: (None, name) for name in own}}, {}
        for path, several, alias in USE.findall(text):
            for name in filter(None, (n.strip() for n in several.split(","))):
                self.known[name] = (place_of(path, name), name)
            if alias:
                self.aliases[alias] = path

    def of(self, word):
        """Where a word is declared, and its name there, or None."""
        for name in (word, f"◌{word}◌"):
            if name in self.known:
                return self.known[name]
        path, _, name = word.rpartition(".")
        if path in self.aliases:
            return module(self.aliases[path]), name
        if path.startswith("Rattle."):
            return module(path), name
        # a field of what a definition gives
        return self.known.get(word.partition(".")[0])


def declarations(text):
    """The declarations of a file of specs/: each name with its text, comments and spacing left out."""
    text = re.sub(r"^use .*$", "", re.sub(r"(^|\s)--[^\n]*", r"\1", text), flags=re.M)
    heads = list(DECLARATION.finditer(text))
    ends = [head.start() for head in heads[1:]] + [len(text)]
    return {head[1]: " ".join(text[head.start() : end].split()) for head, end in zip(heads, ends)}


class Specs:
    """The definitions of all crates, and the ghost members of their traits."""

    def __init__(self, texts):
        self.texts, self.files = texts, {}

    def file(self, path):
        if path not in self.files:
            text = self.texts.get(path, "")
            held = (members if path.endswith(".rt") else declarations)(text)
            self.files[path] = held, Names(text, held)
        return self.files[path]

    def declares(self, path, name):
        return name in self.file(path)[0]

    def reached(self, cited):
        """The texts of these definitions and of all that they rest on."""
        found, ahead = {}, list(cited)
        while ahead:
            path, name = ahead.pop()
            if path == MEMBER:
                code = [file for file in self.texts if file.endswith(".rt")]
                ahead += [(file, name) for file in code if f"ghost {name}" in self.texts[file]]
            if (path, name) in found or not path.startswith("crates/"):
                continue
            held, names = self.file(path)
            if name not in held:
                continue
            found[path, name] = held[name]
            for word in re.findall(r"[^\s(){};,]+", held[name]):
                if known := names.of(word):
                    ahead.append((known[0] or path, known[1]))
        return found

    def print_of(self, cited):
        """Eight digits that change with the text of any definition that these rest on."""
        held = sorted(self.reached(cited).values())
        if not held:
            return "the logic's own"
        return hashlib.sha256("\n".join(held).encode()).hexdigest()[:8]


# ---- formulas


def tree(text):
    """The words of a formula, with a list for each pair of brackets."""
    stack = [[]]
    for word in re.findall(r"[(){}]|[^\s(){}]+", text):
        if word in OPEN:
            stack.append([])
        elif word in CLOSE:
            inner = stack.pop()
            stack[-1].append(inner if len(inner) != 1 else inner[0])
        else:
            stack[-1].append(word.replace("«", "").replace("»", ""))
    if len(stack) != 1:
        raise ValueError(f"a bracket is not closed in: {text}")
    return stack[0]


def contract(function, names):
    """The formula of a function as a tree of what its words stand for, and the definitions that it cites, in order."""
    cited = []

    def stand(word):
        if isinstance(word, list):
            found = [stand(inner) for inner in word]
            return found if len(found) != 1 else found[0]
        name, *fields = word.split(".")
        if name == "result":
            return with_fields(("outcome", RESULT), fields)
        if name in function.seen and fields[:1] == ["new"]:
            return with_fields(("outcome", name), fields[1:])
        if name in function.seen and fields[:1] in (["old"], ["now"]):
            return with_fields(("taken", name), fields[1:])
        if name in function.takes:
            return with_fields(("taken", name), fields)
        if (name in function.types and fields) or name in function.members:
            cited.extend((MEMBER, part) for part in (name, *fields))
            return ("taken", word)
        if word.startswith(".") or re.fullmatch(r"\d\w*", word) or word in PLAIN:
            return word
        known = names.of(word)
        if known is None:
            raise ValueError(f"its contract has `{word}`, which no `ghost use` brings in")
        cited.append(known)
        return known

    return stand(tree(formula(function))), cited


def with_fields(base, fields):
    return [base, *(f".{field}" for field in fields)] if fields else base


def outcome_of(text):
    """What a formula says behind `≡`, with x for `x.now` and `x.old`."""
    text = text.partition(" ≡ ")[2].replace("«", "").replace("»", "")
    return re.sub(r"(?<![\w.])(\w+)\.(?:now|old)\b", r"\1", text)


def defined_in(shape):
    """The definitions of crates in a formula, in order, each with its file."""
    if isinstance(shape, list):
        return [found for inner in shape for found in defined_in(inner)]
    return [shape] if isinstance(shape, tuple) and shape[0].startswith("crates/") else []


def parted(words, sign):
    """The parts of a list of words between the signs."""
    parts = [[]]
    for word in words:
        if word == sign:
            parts.append([])
        else:
            parts[-1].append(word)
    return parts


def theorem(text, names):
    """Variables, hypotheses and conclusion of a theorem's type, as trees of what its words stand for."""
    variables, rest = [], []
    for part in parted(tree(text), "→"):
        if all(isinstance(word, list) and ":" in word for word in part):
            for word in part:
                # a type for which the theorem holds is no variable of it
                variables += word[: word.index(":")] if word[word.index(":") + 1 :] != ["Type", "0"] else []
        else:
            rest.append(part)

    def stand(word):
        if isinstance(word, list):
            found = [stand(inner) for inner in word]
            return found if len(found) != 1 else found[0]
        name, *fields = word.split(".")
        if name in variables:
            return with_fields(("variable", name), fields)
        known = names.of(word)
        return known if known else word

    return variables, [stand(part) for part in rest[:-1]], stand(rest[-1])


def fits(pattern, shape, meant):
    """Whether a hypothesis is the formula; what each of its variables stands for is noted in meant."""
    if isinstance(pattern, tuple) and pattern[0] == "variable":
        return meant.setdefault(pattern[1], shape) == shape
    if isinstance(pattern, list):
        return isinstance(shape, list) and len(pattern) == len(shape) and all(fits(p, s, meant) for p, s in zip(pattern, shape))
    return pattern == shape


def parts_of(shape, kind):
    """The names of the parts of a formula that are of a kind: taken, or outcome."""
    if isinstance(shape, list):
        return [name for inner in shape for name in parts_of(inner, kind)]
    return [shape[1]] if isinstance(shape, tuple) and shape[0] == kind else []


def told_apart(function, shape, type_, names):
    """Why a theorem does not say that the contract decides the outcome, or None."""
    variables, given, concluded = theorem(type_, names)
    if len(given) != 2:
        return f"it has {len(given)} hypotheses, and not two"
    one, two = {}, {}
    for hypothesis, meant in zip(given, (one, two)):
        if not fits(hypothesis, shape, meant):
            return "a hypothesis is not the contract's formula"
    for variable in variables:
        if variable not in one and variable not in two:
            return f"`{variable}` is in no hypothesis: it is an assumption"
    outcome = [("outcome", RESULT)] if function.answers else []
    outcome += [("outcome", name) for name in function.lent]
    for meant in (one, two):
        if any(list(meant.values()).count(part) > 1 for part in meant.values()):
            return "two of its variables stand for one part of the formula"
    for variable in {**one, **two}:
        if variable in one and variable in two:
            if one[variable] != two[variable] or parts_of(one[variable], "outcome"):
                return f"`{variable}` stands for two things, or for both outcomes"
        elif {**one, **two}[variable] not in outcome:
            return f"`{variable}` is in one hypothesis alone, and is no outcome"
    firsts, seconds = ({shape: v for v, shape in meant.items() if shape in outcome} for meant in (one, two))
    pairs = {frozenset(p) for p in equated(concluded)}
    wanted = {frozenset((firsts.get(part), seconds.get(part))) for part in outcome}
    if pairs != wanted or len(wanted) != len(outcome):
        return "its conclusion does not say that the result and all that is lent are equal"
    return None


def equated(concluded):
    """The pairs of variables that a conclusion says to be equal."""
    parts = parted(concluded, "×") if "×" in concluded else [[concluded]]
    for part in parts:
        whole = part[0] if len(part) == 1 else part
        if isinstance(whole, list) and len(whole) == 3 and whole[1] == EQUALS:
            yield whole[0][1], whole[2][1]
        else:
            yield ("", "")


def theorem_of(name):
    return SHARED.get(name) or name.split("::")[-1] + "_unique"


def unique_of(texts, crate):
    """The theorems of a crate: name, and each type that it has."""
    found = {}
    for name, type_ in THEOREM.findall(texts.get(f"crates/{crate}/proofs/Unique.antt", "")):
        found.setdefault(name, []).append(type_)
    return found


# ---- the calls, and the wrong programs


class Call(NamedTuple):
    kind: str
    outcome: str
    files: list  # of the definitions in the outcome, in order


def calls(texts):
    """The rows of the table of calls: each name with its rows."""
    text = texts[PROMISES].partition("\n## The calls\n")[2].split("\n## ")[0]
    found = {}
    for line in text.splitlines():
        cells = [cell.strip() for cell in line.strip("|").split(" | ")]
        if line.startswith("| `") and len(cells) >= 4:
            row = Call(cells[1], cells[2].strip("`"), cells[3].split(", "))
            found.setdefault(cells[0].strip("| `"), []).append(row)
    return found


def kind_of(rows, name):
    return rows[name][0].kind if name in rows else HELPER


class Wrong(NamedTuple):
    label: str
    says: str
    of: list
    gate: str  # must-fail, gate or listed


def wrong_programs(texts, crate):
    """The wrong programs of a crate that are of the form; tests/wrong-programs-fit.test tells the others."""
    for folder in ("must-fail", "wrong"):
        for path in paths(texts, crate, folder):
            if form := FORM.fullmatch(texts[path]):
                gate = {"yes": "gate", "listed": "listed"}.get(form["gate"], folder)
                yield Wrong(Path(path).stem, form["says"], form["of"].split(", "), gate)


# ---- what is printed

HEAD = """# Index

`tools/promises` prints this file from the code, `must-fail/` and `wrong/`; a test fails where it differs.
docs/PROMISES.md, written by hand, says what the statements mean, what is trusted, and which definition states each
sentence of 01.

Under the name of each public function are its kind; its contract, for every input, in which `x.new` is what is left in
x, with a number that changes with the text of any definition that the contract rests on, and of what any `impl` says of
a ghost member that it names, such as `F.number`; the theorem that two outcomes that meet the contract are equal; and
wrong programs that the contract rules out. Of these `must-fail` and `gate` are tried at every gate, and `listed` by
`tools/mutants --listed`. docs/PROMISES.md says what the kinds are.
"""


def entry(texts, specs, rows, function, wrong):
    """The lines of one function."""
    crate = function.name.split("::")[0]
    yield f"\n### `{function.name}`\n"
    yield f"- {kind_of(rows, function.name)}"
    try:
        cited = contract(function, Names(texts[function.file]))[1]
        yield f"- `{formula(function)}` ({specs.print_of(cited)})"
    except ValueError as why:
        yield f"- {why}"
    yield f"- `{theorem_of(function.name)}` in crates/{crate}/proofs/Unique.antt"
    for one in wrong:
        if function.name in one.of:
            yield f"- {one.gate} {one.label}: {one.says}"


def printed(texts):
    """The whole index."""
    specs, rows, lines, kinds, gates = Specs(texts), calls(texts), [], [], []
    for crate in crates(texts):
        held, wrong = list(public(texts, crate)), list(wrong_programs(texts, crate))
        kinds += [kind_of(rows, function.name) for function in held]
        gates += [one.gate for one in wrong]
        if held:
            lines.append(f"\n## {crate}")
        for function in held:
            lines += entry(texts, specs, rows, function, wrong)
    return HEAD + f"\n{counted(kinds, 'public functions')}\n{counted(gates, 'wrong programs')}\n" + "\n".join(lines) + "\n"


def counted(words, what):
    """How many there are, in all and of each."""
    each = [f"{words.count(word)} {word}" for word in sorted(set(words))]
    return f"{len(words)} {what}: {'; '.join(each)}."


# ---- what does not hold


def faults(texts):
    """Every tie that does not hold, in words."""
    specs, rows, seen = Specs(texts), calls(texts), {}
    for crate in crates(texts):
        serving = {}
        for function in public(texts, crate):
            seen[function.name] = seen.get(function.name, 0) + 1
            serving.setdefault(theorem_of(function.name), []).append(function.name)
            for fault in function_faults(texts, specs, rows, crate, function):
                yield f"{function.name}: {fault}"
        for name in sorted(set(unique_of(texts, crate)) - set(serving)):
            yield f"crates/{crate}/proofs/Unique.antt: `{name}` is of no public function"
        yield from wrong_faults(texts, crate)
    for crate, kind in listed(texts):
        if kind:
            yield from export_faults(texts, crate)
    for name, times in seen.items():
        if times > 1:
            yield f"{name}: {times} public functions have this name"
    for name in sorted(set(SHARED) - set(seen)):
        yield f"{name}: tools/ties.py names its theorem, and there is no such public function"
    for name, held in rows.items():
        if name not in seen:
            yield f"{name}: the table of calls names it, and there is no such public function"
        if len(held) > 1 or held[0].kind not in KINDS:
            yield f"{name}: {len(held)} rows in the table of calls, of kind {held[0].kind}; not one of: {', '.join(KINDS)}"
    if not rows or not seen:
        yield f"{len(seen)} public functions and {len(rows)} rows were found: they are not where this looks for them"


def function_faults(texts, specs, rows, crate, function):
    names = Names(texts[function.file])
    try:
        shape, cited = contract(function, names)
    except ValueError as why:
        yield str(why)
        return
    for path, name in cited:
        if path.startswith("crates/") and not (path.split("/")[2] == "specs" and specs.declares(path, name)):
            yield f"its contract cites `{name}`, which {path} does not declare, or which is outside specs/"
    yield from theorem_faults(texts, crate, function, shape)
    decided = set(function.lent) & set(parts_of(shape, "outcome"))
    missed = sorted(set(function.takes) - set(parts_of(shape, "taken")) - decided)
    if missed:
        yield f"its contract says nothing of {', '.join(missed)}"
    if function.name in rows:
        yield from call_faults(rows[function.name][0], formula(function), shape)


def theorem_faults(texts, crate, function, shape):
    name, held = theorem_of(function.name), unique_of(texts, crate)
    own = function.name.split("::")[-1] + "_unique"
    types = held.get(name, [])
    if len(types) != 1:
        yield f"proofs/Unique.antt has {len(types)} theorems `{name}`, and not one"
    if own != name and own in held:
        yield f"it has two theorems, `{own}` and `{name}`"
    names = Names(texts.get(f"crates/{crate}/proofs/Unique.antt", ""))
    for type_ in types:
        if why := told_apart(function, shape, type_, names):
            yield f"`{name}` does not say that its contract decides the outcome: {why}"


def export_faults(texts, crate):
    """Each function of a static library is another's of its name, and each such function of that crate is exported."""
    exported, of = {}, set()
    for name, is_exported, path, start in functions(texts, crate):
        if is_exported:
            text = COMMENT.sub("", texts[path][start:])
            exported[name.split("::")[-1]] = signature(name, path, text), text
    for name, (function, text) in exported.items():
        body = BODY.search(text)
        called = re.fullmatch(r"(\w+)::(\w+)\(([^()]*)\)", " ".join(body[1].split())) if body else None
        if not called or called[2] != name or [w.strip() for w in called[3].split(",") if w.strip()] != function.takes:
            yield f"{crate}: {name} does more than call the function of its name with its arguments"
            continue
        of.add(called[1])
        meant = {f.name: f for f in public(texts, called[1])}.get(f"{called[1]}::{name}")
        if meant is None or head_of(texts, meant) != head_of(texts, function) or meant.clauses != function.clauses:
            yield f"{crate}: {name} has not the parameters, the result and the contract of {called[1]}::{name}"
    for other in of:
        for function in public(texts, other):
            if "::".join(function.name.split("::")[1:]) not in exported:
                yield f"{function.name}: {crate} does not export it"
    if not exported:
        yield f"{crate} exports nothing"


def head_of(texts, function):
    """What a function takes and gives, as its text has it."""
    name = function.name.split("::")[-1]
    text = COMMENT.sub("", texts[function.file])
    head = re.search(rf"\bfn {name}(\(.*?)(?=\s*\b(?:ensures|requires)\b)", text, re.S)
    return head and " ".join(head[1].split())


def call_faults(row, text, shape):
    """The contract says what the row says, by definitions of the files that the row names."""
    outcome = outcome_of(text)
    if not outcome or outcome != row.outcome:
        yield f"its contract says `{outcome}`, and the table of calls `{row.outcome}`"
        return
    found = defined_in(shape[shape.index(EQUALS) + 1 :])
    for (path, name), file in zip(found, row.files):
        if path != f"crates/{file}":
            yield f"`{name}` is declared in {path}, and the table of calls says {file}"
    if not found or len(found) != len(row.files):
        yield f"its contract has {len(found)} definitions behind `≡`, and the table of calls {len(row.files)} files"


def wrong_faults(texts, crate):
    """Each wrong program is of functions of its crate, a public one among them, and each public function has two."""
    every = {name: is_public for name, is_public, _, _ in functions(texts, crate)}
    count = {name: 0 for name, is_public in every.items() if is_public}
    for wrong in wrong_programs(texts, crate):
        for name in wrong.of:
            if name not in every:
                yield f"{crate}: {wrong.label}.edit is of `{name}`, and there is no such function"
            count[name] = count.get(name, 0) + 1
        if not any(every.get(name) for name in wrong.of):
            yield f"{crate}: {wrong.label}.edit is of no public function"
        if len(set(wrong.of)) != len(wrong.of):
            yield f"{crate}: {wrong.label}.edit names a function twice"
    for name, is_public in every.items():
        if is_public and count[name] < 2:
            yield f"{name}: {count[name]} wrong programs, and not two"
