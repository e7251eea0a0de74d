"""Wrong programs: each a crate with a small edit, which the check must refuse because a fact (an obligation) fails.

A file crates/NAME/must-fail/LABEL.edit (rt tries it) or crates/NAME/wrong/LABEL.edit has these lines, in this order:

    says: what is wrong, in one line
    of: phase::PhaseAccumulator::reset           (the function that is wrong then; more may follow, after commas)
    gate: yes                                    (in wrong/ alone; `listed`: only `tools/mutants --listed` tries it)
    file: src/lib.rt                             (of src/ or of specs/)
    old: a text of one line, which the file has once
    new: the text in its place

In wrong/ a text may have more lines, each after an `old:` or a `new:` of its own. More pairs of `old:` and `new:` may
follow, and more files; each edit is made on what those before it left.
"""
import os
import re
import shutil
import subprocess
import tempfile
import threading
from concurrent.futures import ThreadPoolExecutor
from difflib import SequenceMatcher
from pathlib import Path
from typing import NamedTuple

from complaints import could_not_tell, is_name, said

ROOT = Path(__file__).resolve().parent.parent
AT_A_TIME = 3  # a check takes up to 2 GB
SECONDS = 1800  # and none takes so long
FORM = re.compile(
    r"says: (?P<says>\S.*)\nof: (?P<of>[\w:]+(?:, [\w:]+)*)\n(?:gate: (?P<gate>yes|listed)\n)?"
    r"(?:file: \S+\n(?:(?:old: .+\n)+(?:new:(?: .*)?\n)+)+)+"
)
EDIT = re.compile(r"^(file|old|new):(?: (.*))?$", re.M)
# What begins a function, of a type or not, or another item of a file: its attributes are part of it.
ITEM = re.compile(
    r"^(?: *#\[.+\]\n)*(?:impl(?:<[^{}]*?>)? (?P<trait>\w+(?:<[^{}]*?>)? for )?(?P<type>\w+)|(?P<inner> +)?(?:pub )?(?:extern \"C\" )?fn (?P<fn>\w+)"
    r"|(?:pub )?(?:const|struct|enum|type|trait) )",
    re.M,
)
COPY = "_again"  # in the name of a function's copy, before its number
AS_IT_IS = 1  # the number of the copy that has no edit
PLACE = re.compile(r"(?:(src/\S+\.rt):(\d+):|proofs/(\S+)/(?:Answers|Invariants|Proof)\.antt:)")


class Program(NamedTuple):
    file: Path
    crate: str
    says: str
    of: list
    gate: str
    edits: list  # of file, old and new


class Tried(NamedTuple):
    program: Program
    fault: str  # empty where a fact refused it
    complaint: str  # the first


def files(folder):
    return sorted(ROOT.glob(f"crates/*/{folder}/*.edit"))


def misfit(file, why):
    return ValueError(f"{file.relative_to(ROOT)}: {why}")


def read(file):
    """The program of a file. ValueError where the file is not of the form."""
    text = file.read_bytes().decode("utf-8", "replace")
    form = FORM.fullmatch(text)
    if not form:
        raise misfit(file, "its lines are not those that the head of tools/wrong.py names, in that order")
    if (form["gate"] is not None) != (file.parent.name == "wrong"):
        raise misfit(file, "a line `gate:` is in every file of wrong/, and in no other")
    if file.parent.name == "must-fail" and re.search(r"^(old|new):.*\n\1:", text, re.M):
        raise misfit(file, "rt reads one line of an `old:` and of a `new:`")
    name, before, edits = "", "", []
    for key, value in EDIT.findall(text):
        if key == "file":
            name = value
        elif key == before:  # another line of the same text
            edits[-1][key] += "\n" + value
        elif key == "old":
            edits.append({"file": name, "old": value})
        else:
            edits[-1]["new"] = value
        before = key
    return Program(file, file.parent.parent.name, form["says"], form["of"].split(", "), form["gate"] or "", edits)


def texts_of(folder):
    """The files of a crate: name and text."""
    found = [f for part in ("src", "specs", "proofs") for f in (folder / part).rglob("*") if f.is_file()]
    return {f.relative_to(folder).as_posix(): f.read_bytes().decode("utf-8") for f in found}


def made(program, texts=None):
    """The files of the program's crate, or those given, with its edits made. ValueError where one does not fit."""
    texts = dict(texts or texts_of(ROOT / "crates" / program.crate))
    for name, old, new in (edit.values() for edit in program.edits):
        if not re.match("(?:src|specs)/", name) or name not in texts:
            raise misfit(program.file, f"{name} is no file of src/ or specs/")
        times = texts[name].count(old)
        if times != 1:
            raise misfit(program.file, f"its `old:` is in {name} {times} times and not once: {old}")
        if old == new:
            raise misfit(program.file, f"it changes nothing: {old}")
        texts[name] = texts[name].replace(old, new)
    return texts


def function_at(name, text, place):
    """The function of a file in which a place of its text lies, as the folder of its proof; None where none does, and for
    a trait's function, beside which its `impl` can hold no copy."""
    items = [item for item in ITEM.finditer(text) if item.start() <= place]
    if not items or not items[-1]["fn"]:
        return None
    impls = [item for item in items if item["type"]] if items[-1]["inner"] else []
    if impls and impls[-1]["trait"]:
        return None
    types = [impl["type"] for impl in impls]
    modules = [] if name in ("src/lib.rt", "src/main.rt") else [Path(name).stem]
    return "/".join([*modules, *types[-1:], items[-1]["fn"]])


def function_of(program):
    """The one function whose body a program changes; None where it changes several, or anything else."""
    texts = texts_of(ROOT / "crates" / program.crate)
    found = set()
    for name, old, _ in (edit.values() for edit in program.edits):
        if not name.startswith("src/") or re.search(r"\b(?:fn|ensures|requires|ghost)\b", old):
            return None
        start = texts[name].find(old)
        found |= {function_at(name, texts[name], start), function_at(name, texts[name], start + len(old))}
    return found.pop() if len(found) == 1 else None


def batches(programs):
    """The programs in batches: all of a crate that change the body of one function each are tried by one check, each in
    a copy of its function under a name of its own, which nothing calls; every other program alone."""
    together, alone = {}, []
    for program in programs:
        function = function_of(program)
        if function is None:
            alone.append({None: program})
            continue
        of_crate = together.setdefault(program.crate, {})
        number = AS_IT_IS + 1 + sum(name.rpartition(COPY)[0] == function for name in of_crate)
        of_crate[f"{function}{COPY}{number}"] = program
    return [*together.values(), *alone]


def crate_of(batch):
    return next(iter(batch.values())).crate


def span_of(name, text, function):
    """Where a function of a file begins and ends: from its line with `fn` to its last brace."""
    for item in ITEM.finditer(text):
        if item["fn"] and function_at(name, text, item.start()) == function:
            end = f"\n{item['inner'] or ''}}}\n"
            return item.start(), text.index(end, item.start()) + len(end)
    raise ValueError(f"{name} has no function {function}")


def with_copy(texts, plain, name, function, copy, body):
    """Texts with a copy of a function of a plain crate added, under its own name and with this body, and of its proof."""
    old, new = (path.split("/")[-1] for path in (function, copy))
    body = re.sub(rf"((?:pub )?)(?:extern \"C\" )?fn {old}\b", rf"\1fn {new}", body, count=1)
    _, end = span_of(name, texts[name], function)
    texts = texts | {name: texts[name][:end] + "\n" + body + texts[name][end:]}
    for file, text in plain.items():
        if file.startswith(f"proofs/{function}/"):
            text = text.replace(f"proofs.{function.replace('/', '.')}.", f"proofs.{copy.replace('/', '.')}.")
            texts[f"proofs/{copy}/{file.removeprefix(f'proofs/{function}/')}"] = text
    return texts


def made_together(batch):
    """The files of a crate with a copy of a function for each program of a batch, which it makes wrong, and with one of
    each of these functions as it is."""
    plain = texts_of(ROOT / "crates" / crate_of(batch))
    texts = plain
    for copy, program in [*as_they_are(batch).items(), *batch.items()]:
        file, (function, _, number) = program.edits[0]["file"], copy.rpartition(COPY)
        start, end = span_of(file, plain[file], function)
        body = plain[file][start:end]
        if int(number) != AS_IT_IS:
            body = made(program, plain | {file: body})[file]
        texts = with_copy(texts, plain, file, function, copy, body)
    return texts


def as_they_are(batch):
    """The copies without an edit, each with a program of its function."""
    return {f"{copy.rpartition(COPY)[0]}{COPY}{AS_IT_IS}": program for copy, program in batch.items()}


def is_of(function, texts):
    """A test of a complaint's place: whether it lies in the function or in its proof."""

    def test(shown):
        place = PLACE.match(shown)
        if not place or place[3]:
            return place is not None and place[3] == function
        lines = texts[place[1]].split("\n")
        return function_at(place[1], texts[place[1]], len("\n".join(lines[: int(place[2])]))) == function

    return test


def in_rattle(crate, function):
    """A function's name as a check prints it."""
    return f"{crate}::{function.replace('/', '::')}"


def names_in(folder):
    """The goals of a function, and what the code's steps are called that its proof cites, in the order of the code."""
    goals = re.findall(r"^pub (\S+) : goal\.", (folder / "AnswersOffered.antt").read_text("utf-8"), re.M)
    return goals, re.findall(r"^ +pub ([^\s:]+) : (?:Own|Step)-", (folder / "Lts.antt").read_text("utf-8"), re.M)


def matched(old, new):
    """Which name stands for which: by their places, or, where the edit adds or takes away some, by what stands about."""
    if len(old) == len(new):
        return list(zip(old, new))
    blocks = SequenceMatcher(None, old, new, autojunk=False).get_opcodes()
    return [pair for tag, a, b, c, d in blocks if tag == "replace" and b - a == d - c for pair in zip(old[a:b], new[c:d])]


def cases_of(old, new):
    """The names of the two cases of a branch, and of the types that are called by it; and of a case of a match."""
    ends = [re.fullmatch(r"(in-.+)-(1|own)", name) for name in (old, new)]
    if all(ends) and ends[0][2] == ends[1][2]:
        return [(ends[0][1], ends[1][1])]
    if old.startswith("if-") and new.startswith("if-"):
        return [(f"{word}-{old[3:]}", f"{word}-{new[3:]}") for word in ("then", "else", "Then", "Else", "Joined")]
    return []


def raw_facts(folder):
    """Of each step of a function: those of its facts that are also there as the code's test has them, as `not x` is."""
    found, record = {}, ""
    for line in (folder / "Lts.antt").read_text("utf-8").splitlines():
        if head := re.match(r" +pub record (\S+)", line):
            record = head[1]
        elif field := re.match(r" +pub (true|false)-raw :", line):
            found.setdefault(record, set()).add(field[1])
        elif step := re.match(r" +pub ([^\s:]+) : (Own-\S+)", line):
            found.setdefault(step[1], set()).update(found.get(step[2], ()))
    return found


def renamed(text, names, raw):
    """A proof file with the names of goals and steps that the edited code has in the place of those that it had."""
    text = re.sub(r"[^\s(){}.;,]+", lambda word: names.get(word[0], word[0]), text)

    def fact(found):
        step, side = found.groups()
        return found[0] if side in raw.get(step, (side,)) else f"{step}.{side}"

    return re.sub(r"([^\s(){}.;,]+)\.(true|false)-raw", fact, text)


def linked(folder, to):
    """Copies what a check kept; what it proved by links, since a check replaces such a file and writes into none."""

    def copy(one, other):
        try:
            os.link(one, other) if one.endswith(".oantt") else shutil.copy2(one, other)
        except OSError:
            shutil.copy2(one, other)

    shutil.copytree(folder, to, symlinks=True, copy_function=copy)


class Checker:
    """Checks copies of crates in a folder outside the repository, over the libraries below and over what the last check
    of the crate proved, as `rt check` left them in out/: so only what an edit changes is checked again.

    The programs of a batch are tried by one check, and each is judged by the complaints of its own copy of its function.
    The copies without an edit must be proved in that check. Where a proof names a goal or a step of the code that the
    edit gives another name, as `size-ge4` for `size-ge5`, no fact is tried: then the copy's proof gets the new names,
    and is checked again.
    """

    def __init__(self, room, seconds=SECONDS):
        self.room, self.lock, self.made, self.seconds = Path(room), threading.Lock(), 0, seconds
        self.kit = Path(subprocess.run(["rt", "doc"], capture_output=True, text=True, check=True).stdout.strip()).parent
        lines = [line.split("#")[0] for line in (ROOT / "crates.txt").read_text("utf-8").splitlines()]
        self.needs = {line.split(":")[0].split()[0]: line.split(":")[1].split() for line in lines if ":" in line}
        self.static = {line.split()[0] for line in lines if line.split(":")[0].split()[1:] == ["staticlib"]}

    def below(self, crate):
        """The crates of the repository that a crate stands on."""
        own = [name for name in self.needs[crate] if name in self.needs]
        return {*own}.union(*(self.below(name) for name in own))

    def words(self, crate, home):
        """What rt says to rattle."""
        file = "src/main.rt" if (home / "src/main.rt").is_file() else "src/lib.rt"
        words = [self.kit / "bin/rattle", "check", "--crate-name", crate, file]
        for name in ["std", *self.needs[crate]]:
            place = ROOT / "crates" / name / "out/rlib" if name in self.needs else self.kit / "rlibs"
            words += ["--extern", f"{name}={place}/{name}.rlib"]
        for place in [self.kit / "rlibs", *(ROOT / "crates" / name / "out/rlib" for name in sorted(self.below(crate)))]:
            words += ["-L", f"dependency={place}"]
        words += ["--antt-project", self.kit / "rattle/logic/antt-project.json", "--logic-built", self.kit / "logic_built"]
        return words + ["--jobs", "1", "--links", f"{crate}=", *(("--crate-type", "staticlib") if crate in self.static else ())]

    def current(self, crates):
        """Has rt prove what has changed of these crates and of those below since it left out/. ValueError where it cannot."""
        crates = [name for name in self.needs if name in crates]
        tops = [name for name in crates if not any(name in self.below(other) for other in crates)]
        rest = [name for name in crates if name not in tops]
        for name in [*tops, *rest]:  # a check of the first makes the others as libraries
            if name in rest and (ROOT / "crates" / name / "out/incremental").is_dir():
                continue
            ran = subprocess.run(["rt", "check"], cwd=ROOT / "crates" / name, capture_output=True, text=True, errors="replace")
            if ran.returncode != 0:
                raise ValueError(f"{name} is not proved as it is:\n{ran.stdout}{ran.stderr}")

    def folder(self, texts):
        with self.lock:
            self.made += 1
            home = self.room / str(self.made)
        for name, text in texts.items():
            (home / name).parent.mkdir(parents=True, exist_ok=True)
            (home / name).write_bytes(text.encode("utf-8"))
        return home

    def check(self, crate, texts, *flags, keep=True):
        """The exit status and all that was said of a crate with these texts; no status where it took too long."""
        home = self.folder(texts)
        kept = ROOT / "crates" / crate / "out/incremental"
        words = [*self.words(crate, home), *flags]
        if keep and kept.is_dir():
            linked(kept, home / "kept")
            words += ["--incremental", home / "kept"]
        try:
            ran = subprocess.run(words, cwd=home, capture_output=True, stdin=subprocess.DEVNULL, timeout=self.seconds)
            return ran.returncode, (ran.stdout + ran.stderr).decode("utf-8", "replace")
        except subprocess.TimeoutExpired:
            return None, ""
        finally:
            shutil.rmtree(home)

    def judged(self, status, log, is_meant=lambda place: True):
        """Why no fact refuses what was checked, empty where one does; and the first complaint that is meant."""
        complaint, no_fact = said(log, is_meant)
        if status == 0:
            return "it is proved: no statement rules it out", ""
        if status is None:
            return f"no verdict in {self.seconds} s", ""
        if status != 1 or not re.search("^logic=not-proved", log, re.M):
            return f"it did not reach the prover, or the prover could not tell (exit {status})", complaint or log[-300:]
        return no_fact or "", complaint

    def judged_copy(self, status, log, texts, crate, copy):
        """The same of a copy of a function, of which the check must also say that it is not proved."""
        fault, complaint = self.judged(status, log, is_of(copy, texts))
        line = re.search(rf"^fn {re.escape(in_rattle(crate, copy))}: (.*)", log, re.M)
        if status == 1 and (line is None or line[1].startswith(("proved", "no proof: it calls"))):
            return "it is proved: no statement rules it out" if line and line[1] == "proved" else "it was not tried", ""
        if could_not_tell(line and line[1]):
            return "the prover could not tell", complaint
        return fault, complaint

    def alone(self, program):
        """What becomes of one program, made in the crate itself."""
        return Tried(program, *self.judged(*self.check(program.crate, made(program))))

    def tried(self, batch):
        """What becomes of a batch's programs."""
        crate = crate_of(batch)
        if None in batch:
            return [self.alone(program) for program in batch.values()]
        try:
            texts = made_together(batch)
        except ValueError as wrong:
            return [Tried(program, str(wrong), "") for program in batch.values()]
        status, log = self.check(crate, texts)
        for copy in as_they_are(batch):
            if not re.search(rf"^fn {re.escape(in_rattle(crate, copy))}: proved$", log, re.M):
                # what a copy shows is nothing then: by the first complaint, a program that cannot be compiled, say
                return [self.alone(program) for program in batch.values()]
        judged = {copy: self.judged_copy(status, log, texts, crate, copy) for copy in batch}
        unfit = {copy: batch[copy] for copy, (fault, _) in judged.items() if is_name(fault)}
        if unfit:
            texts = self.fitted(crate, texts, unfit)
            judged |= {copy: self.judged_copy(*again, crate, copy) for again in [(*self.check(crate, texts), texts)] for copy in unfit}
        return [Tried(program, *judged[copy]) for copy, program in batch.items()]

    def fitted(self, crate, texts, unfit):
        """The files with the proofs of these copies renamed: rattle writes the names of the goals and steps of each
        function as it is and of each copy, in the order of the code. A fact that is there in one spelling alone is named
        by that one."""
        with tempfile.TemporaryDirectory(dir=self.room) as place:
            of = {copy: f"{copy.rpartition(COPY)[0]}{COPY}{AS_IT_IS}" for copy in unfit}
            starts = [word for name in {*of, *of.values()} for word in ("--start", in_rattle(crate, name))]
            self.check(crate, texts, "--generated", place, *starts)
            home, texts = Path(place, f"Rattle-{crate}-proofs"), dict(texts)
            for copy, plain in of.items():
                if not (home / copy / "Lts.antt").is_file() or not (home / plain / "Lts.antt").is_file():
                    continue
                pairs = [pair for old, new in zip(names_in(home / plain), names_in(home / copy)) for pair in matched(old, new)]
                names = dict(pairs + [pair for old, new in pairs for pair in cases_of(old, new)])
                for file in texts:
                    if file.startswith(f"proofs/{copy}/"):
                        texts[file] = renamed(texts[file], names, raw_facts(home / copy))
        return texts


def try_all(programs):
    """Tries the programs, some checks at a time, and gives what became of each, those of crates with many crates below
    first, as they take longest."""
    if not programs:
        return
    crates = {program.crate for program in programs}
    with tempfile.TemporaryDirectory(prefix="wrong-") as room, ThreadPoolExecutor(AT_A_TIME) as pool:
        checker = Checker(room)
        checker.current(crates)
        rank = {crate: i for i, crate in enumerate(reversed(checker.needs))}
        in_turn = sorted(batches(programs), key=lambda batch: (None in batch, rank[crate_of(batch)]))
        try:
            for all_of_it in pool.map(checker.tried, in_turn):
                yield from all_of_it
        finally:
            pool.shutdown(cancel_futures=True)
