"""What a check complains of: a fact that fails (an obligation is false), or only a text that no longer fits the code.
"""
import re

# What a complaint starts with where no fact was tried, and what it means.
# Q is anything in backquotes; D is the declaration that the complaint is of, and what it cites.
Q = "`[^`]*`"
D = f"(?:{Q}: )*"
NAMES = "the proof names a goal, a step of the code, or a field, that is not there"
NO_FACT = [
    (f"{D}module {Q} has no {Q} that can be named", NAMES),
    (f"{D}record {Q} has no field", NAMES),
    (f"{D}[^`]*where one has `[^` ]*\\b[Ll]ts\\.[A-Z][^` ]*` ", "the proof stands at another step of the code"),
    ("`(?:invariant|decreases)-", "the loop's invariant or measure does not fit its locals; it is a definition and no fact"),
    (f"{D}expected type `([^`]*)`, but this has type `[^`]*→ \\1`", "the proof gives too few arguments"),
    (f"{D}expected type `[^`]*→ ([^`]*)`, but this has type `\\1`", "the proof takes too many arguments"),
    (f"{D}(?:this pattern needs a function|more patterns than|too (?:many|few) arguments)", "the proof takes another number of arguments"),
    (f"{D}this is applied to an argument", "the proof gives too many arguments"),
    (f"{D}{Q} projects from", "the proof takes apart what has another shape"),
    (f"{D}(?:{Q} has )?no clause (?:for|covers)", "a proof or a definition leaves out a case"),
    (f"{D}expected type `(?:[^` ]*\\.)?(?:ℕ|ℤ|Bool|Float)`, but", "a definition of another type"),
    (f"{D}this file exports no", "the proof file has no proof of the function"),
    (f"{D}{Q} has no function {Q} for this file", "the function of the proof file is not there"),
    (f"{D}{Q} is (?:not in scope|ambiguous|not a constructor|no name)", "an unknown name"),
    (f"{D}(?:an operand is missing|cannot continue|expected (?:an? |the end)|a declaration is|this (?:line|clause) )", "a text that cannot be read"),
]
NOT_COMPILED = "the code cannot be compiled"
# A name that another complaint took away: that other one is what counts.
FOLLOWS = re.compile(f"{D}{Q} (?:was not admitted|cannot be unfolded because)")
# An answer that is refused is an error; a goal that has none, and that rattle's own search leaves open, is a note.
COMPLAINT = re.compile(
    r"^\S+: error(?P<code>\[[\w-]+\])?: (?P<error>.*(?:\n +.*)*)"
    r"|^note: (?P<note>\S+: it is not proved that .*)",
    re.M,
)


def said(log, is_meant=lambda place: True):
    """The first complaint of a log at the places that are meant, and why it is no fact that fails, or None."""
    for found in COMPLAINT.finditer(log):
        shown = found[0].removeprefix("note: ").split("\n")[0].removeprefix("./")[:300]
        if not is_meant(shown):
            continue
        if found["note"]:
            return shown, None
        message = " ".join(found["error"].split())
        if FOLLOWS.match(message):
            continue
        if found["code"]:
            return shown, NOT_COMPILED
        if shown.startswith("src/"):
            return shown, "the contract itself cannot be read"
        for pattern, meaning in NO_FACT:
            if re.match(pattern, message):
                return shown, meaning
        return shown, None
    return "", "its log has no complaint"


def is_name(why):
    """Whether no fact was tried since a proof names what the code calls otherwise."""
    return why == NAMES


def could_not_tell(line):
    """Whether what a check says of a function is that a limit of the prover kept it from a verdict."""
    return line is not None and line.startswith("could not tell")
