"""What the tests of the desk share: the programs, scores worked out from document 01's words, and a list of faults.

DESK names another build of the desk to run, as the one under sanitizers.
"""
import os
import re
import shutil
import struct
import subprocess
import sys
import tempfile
from pathlib import Path

ROOT = Path(__file__).resolve().parent.parent.parent
os.chdir(ROOT)

WORDS = {1: "on", 2: "off", 3: "reset"}
LAST = 2**32 - 1
SOUNDS = {"sine": 0, "square": 1, "saw": 2, "triangle": 3, "pulse": 4, "rounded": 6}
# The settings of gavberin.h in their order, as they are without an option: a whole number or a float.
SETTINGS = {
    "rate": 48000, "code": 2, "duty": 0.5, "attack": 0.01, "decay": 0.1, "sustain": 0.7, "release": 0.3,
    "lfo_code": 0, "lfo_duty": 0.5, "lfo_frequency": 0.0, "lfo_depth": 0.0, "joined": 0,
}  # fmt: skip
SETTING_WORDS = 24  # of a shelf's head, in use or free
FREE_WORDS = SETTING_WORDS - len(SETTINGS)
SHELF_VERSION = 6
SHELF_NAMES = ["magic", "version", "voice", "samples", "bits", "score_len", "entry", "beside", *SETTINGS]
SHELF_HEAD = struct.Struct("<8s7Q" + "".join("d" if isinstance(x, float) else "Q" for x in SETTINGS.values()) + f"{FREE_WORDS}Q")
STATE_WORDS = 13
ENTRY = 8 * STATE_WORDS
BESIDE_WORDS = 3  # the sum of a section's bytes in the WAV, and its peak: the magnitude and the number
SECTION = ENTRY + 8 * BESIDE_WORDS  # bytes

faults = []
runs = 0


def needed(*tools):
    """Ends the test where a tool is not here."""
    packages = {"gcc": "gcc", "sox": "sox", "sndfile-info": "sndfile-programs", "sndfile-convert": "sndfile-programs"}
    for tool in tools:
        if shutil.which(tool) is None:
            print(f"{tool} is missing: install Debian's package {packages[tool]}, or run: make deps")
            sys.exit(77)


def built(*names):
    """Builds what a test runs; ends the test where it cannot be built here."""
    if not Path("build/libgavberin.a").is_file() and shutil.which("rt") is None:
        print("build/libgavberin.a is not there, and rt, which makes it, is not on the PATH: install the Rattle kit")
        sys.exit(77)
    needed("gcc")
    made = subprocess.run(["make", "--no-print-directory", *(f"build/{name}" for name in names)], capture_output=True)
    if made.returncode != 0:
        print((made.stdout + made.stderr).decode(errors="replace"))
        sys.exit(1)


built("desk")
DESK = str(Path(os.environ.get("DESK", "build/desk")).resolve())
SANITIZED = "sanitized" in DESK


def workplace():
    """A folder of its own, gone at the end."""
    return tempfile.TemporaryDirectory(prefix="desk-")


def fault(text):
    faults.append(text)
    if len(faults) < 30:
        print(text)


def hold(name, holds, more=""):
    if not holds:
        fault(f"{name}{': ' if more else ''}{more}")


def finish():
    print(f"{runs} runs of the desk, {len(faults)} faults")
    sys.exit(1 if faults else 0)


class Ran:
    def __init__(self, status, out, err):
        self.status, self.out, self.err = status, out, err.decode(errors="replace")


def desk(*given, **streams):
    """Runs the desk. It ends by itself, with status 0, 1 or 2, and in words exactly where it is not 0."""
    global runs
    runs += 1
    streams = {"stdin": subprocess.DEVNULL, "stdout": subprocess.PIPE, "stderr": subprocess.PIPE, **streams}
    if "input" in streams:
        del streams["stdin"]
    try:
        ran = subprocess.run([DESK, *map(str, given)], timeout=60, check=False, **streams)
    except subprocess.TimeoutExpired:
        fault(f"desk {' '.join(map(str, given))}: it did not end in 60 s")
        return Ran(-1, b"", b"")
    said = Ran(ran.returncode, ran.stdout or b"", ran.stderr or b"")
    name = "desk " + " ".join(map(str, given))[:200]
    hold(name, said.status in (0, 1, 2), f"status {said.status}, {said.err[-2000:]!r}")
    hold(name, "Sanitizer" not in said.err and "runtime error" not in said.err, said.err[-2000:])
    if said.status in (1, 2) and ran.stderr is not None:
        verb = re.escape(str(given[0])) if given else ""
        told = re.match(rf"desk(?: {verb})?: \S|desk VERB", said.err)
        hold(name, told is not None, f"status {said.status} and {said.err!r:.300}")
        hold(name, ("try: desk" in said.err or "desk VERB" in said.err) == (said.status == 2), f"{said.err!r:.300}")
    return said


def refused(name, ran, number, place, *words):
    """The desk refused with this number and place of document 01, and said these words."""
    hold(name, ran.status == 1, f"status {ran.status}, {ran.err!r:.300}")
    hold(name, f"refused {number} at place {place}: " in ran.err, f"not refused {number} at place {place}: {ran.err!r:.300}")
    hold(name, ran.out == b"", f"it printed {ran.out!r:.100}")
    for word in words:
        hold(name, word in ran.err, f"no {word!r} in {ran.err!r:.300}")


def ended(name, ran, status, *words):
    hold(name, ran.status == status, f"status {ran.status}, {ran.err!r:.300}")
    for word in words:
        hold(name, word in ran.err, f"no {word!r} in {ran.err!r:.300}")


def record(position, kind, note, velocity, mark=b"VN", last=0):
    return mark + position.to_bytes(4, "little") + bytes([kind, note, velocity, last])


def records_of(score):
    return [struct.unpack_from("<2sI4B", score, at) for at in range(0, len(score) - 9, 10)]


def score_fault(score):
    """The number and the place that document 01 refuses a score with, or None."""
    if len(score) % 10 or len(score) > 40960:
        return 1, 0
    before = 0
    for place, (mark, position, kind, note, velocity, last) in enumerate(records_of(score)):
        if mark != b"\x56\x4e":
            return 2, place
        if kind not in WORDS:
            return 3, place
        if max(note, velocity) > (0 if kind == 3 else 127) or last:
            return 4, place
        if position < before:
            return 5, place
        before = position
    return None


def listing(score):
    lines = [f"{position} {WORDS[kind]} {note} {velocity}\n" for _, position, kind, note, velocity, _ in records_of(score)]
    return f"records {len(lines)}\n" + "".join(lines)


def edit_line(insert, edit):
    """An edit as text: whether it inserts, and its record."""
    _, position, kind, note, velocity, _ = records_of(edit)[0]
    return f"{'+' if insert else '-'} {position} {WORDS[kind]} {note} {velocity}\n"


def edits_text(edits):
    return "".join(edit_line(*edit) for edit in edits)


def after_edit(score, insert, edit):
    """The score after one edit, by 02's words, or the number that it is refused with."""
    records = [score[at : at + 10] for at in range(0, len(score), 10)]
    _, place, kind, note, velocity, _ = records_of(edit)[0]
    if kind == 3 and (note or velocity):
        return 52
    if insert:
        if len(records) == 4096:
            return 35
        last = max((i for i, (_, position, *_) in enumerate(records_of(score), 1) if position <= place), default=0)
        records.insert(last, edit)
    elif edit in records:
        records.remove(edit)
    else:
        return 34
    return b"".join(records)


def edits_between(one, other):
    """Edits that make one score the other: at each position where they differ, all records out and then in."""
    at = [{}, {}]
    for sounds, score in zip(at, (one, other)):
        for i, (_, position, *_) in enumerate(records_of(score)):
            sounds.setdefault(position, []).append(score[10 * i : 10 * i + 10])
    places = sorted(place for place in {*at[0], *at[1]} if at[0].get(place) != at[1].get(place))
    return [(insert, edit) for place in places for insert in (False, True) for edit in at[insert].get(place, [])]


def random_score(dice, records, step=lambda dice: dice.choice([0, 0, 1, 63, 64, 255, 4096, dice.randrange(10**5)])):
    position, score = 0, b""
    for _ in range(records):
        kind = dice.choice([1, 1, 1, 2, 2, 3])
        note, velocity = (0, 0) if kind == 3 else (dice.randrange(128), dice.randrange(128))
        position = min(LAST, position + step(dice))
        score += record(position, kind, note, velocity)
    return score


def first_change(one, other):
    """The lower position of the two at the first index where the records differ; None where the scores are equal."""
    a, b = records_of(one), records_of(other)
    i = next((i for i, pair in enumerate(zip(a, b)) if pair[0] != pair[1]), min(len(a), len(b)))
    return min((part[i][1] for part in (a, b) if i < len(part)), default=None)


def but_acted(entry):
    """An entry without bits 16 to 63 of word 5, the records acted."""
    return entry[:42] + entry[48:]


def made_between(one, other, samples, before, after):
    """The samples that a re-render from one score to the other makes, from which to before which; both are the length
    where it makes none. From 02's words, by the entries of renders of both from zero: it stops at the first entry past
    the start where both states are the same but for records acted, and both scores' records from there on."""
    change = first_change(one, other)
    if change is None or change >= samples:
        return samples, samples
    start = change // 4096
    for section in range(start + 1, -(-samples // 4096)):
        place = slice(ENTRY * section, ENTRY * (section + 1))
        rest = [[fields for fields in records_of(score) if fields[1] >= 4096 * section] for score in (one, other)]
        if rest[0] == rest[1] and but_acted(before[place]) == but_acted(after[place]):
            return 4096 * start, 4096 * section
    return 4096 * start, samples


def made_words(wav, made, samples, rate):
    """How the desk tells of the samples that a re-render made, without the line's end."""
    begin, end = made
    words = f"{wav}: {end - begin} of {samples} samples rendered again, samples {begin} to {end - 1} ({begin / rate:.3f} s to {end / rate:.3f} s)"
    return words + ("; those after them do not change" if end < samples else "")


def wav_parts(path):
    """The format, rate, bits and samples of a WAV as the desk writes it, each field as it must be."""
    data = Path(path).read_bytes()
    head = struct.unpack_from("<4sI4s4sIHHIIHHH4sII4sI", data)
    bits, rate, count = head[10], head[7], head[14]
    frame = bits // 8
    want = (b"RIFF", len(data) - 8, b"WAVE", b"fmt ", 18, 3, 1, rate, rate * frame, frame, bits, 0)
    want += (b"fact", 4, count, b"data", frame * count)
    hold(f"{path}: its head", head == want and len(data) == 58 + frame * count, f"{head}, and not {want}")
    return rate, bits, data[58:]


def voice_version():
    return int(subprocess.run([DESK, "--version"], capture_output=True, check=True).stdout.split()[-1])


class Shelf:
    """The fields of a shelf's file, each as it must be."""

    def __init__(self, path):
        data = Path(path).read_bytes()
        head = dict(zip(SHELF_NAMES, SHELF_HEAD.unpack_from(data)))
        self.samples, self.bits = head["samples"], head["bits"]
        self.settings = tuple(head[name] for name in SHELF_NAMES[8:])
        sections = -(-self.samples // 4096)
        end = SHELF_HEAD.size + SECTION * sections
        parts = [data[at : at + SECTION] for at in range(SHELF_HEAD.size, end, SECTION)]
        self.entries = b"".join(part[:ENTRY] for part in parts)
        self.sums = [int.from_bytes(part[ENTRY : ENTRY + 8], "little") for part in parts]
        self.peaks = [struct.unpack_from("<dQ", part, ENTRY + 8) for part in parts]
        self.score = data[end : end + head["score_len"]]
        filled = self.score + b"\0" * (-len(self.score) % 8)
        fixed = tuple(head[name] for name in ("magic", "version", "voice", "entry", "beside"))
        hold(f"{path}: its head", fixed == (b"GAVSHELF", SHELF_VERSION, voice_version(), STATE_WORDS, BESIDE_WORDS), f"{fixed}")
        hold(f"{path}: free words", not any(SHELF_HEAD.unpack_from(data)[len(SHELF_NAMES) :]))
        hold(f"{path}: its end", data[end:] == filled + struct.pack("<Q", sum_of(data[:-8])), f"{len(data)} bytes")


def sum_of(data):
    """The sum that shelves have: 8 bytes a step, from a start that depends on the length."""
    total = 0xCBF29CE484222325 ^ len(data)
    for (word,) in struct.iter_unpack("<Q", data + b"\0" * (-len(data) % 8)):
        total = (total ^ word) * 0x9E3779B97F4A7C15 & (2**64 - 1)
        total = (total ^ total >> 32) * 0xD6E8FEB86659FD93 & (2**64 - 1)
    return total


def section_sums(samples, frame):
    """Of the bytes of a WAV's samples, section by section."""
    return [sum_of(samples[at : at + 4096 * frame]) for at in range(0, len(samples), 4096 * frame)]


def with_sum(data):
    return data[:-8] + struct.pack("<Q", sum_of(data[:-8]))


def temporary_name(name):
    """The one name beside a file under which it is written, and which is locked meanwhile."""
    return f".desk-{sum_of(name.encode()):016x}"


def settings_of(rate=48000, wave="saw", duty=0.5, adsr=(0.01, 0.1, 0.7, 0.3), **others):
    """Every setting in its order; others by their names in gavberin.h."""
    named = dict(zip(SETTINGS, (rate, SOUNDS[wave], duty, *adsr)))
    return tuple({**SETTINGS, **named, **others}.values())


def library(score, samples, *some, **others):
    """What the library renders by itself: samples as bytes of f64, the shelf's words, and its peaks, each as its
    magnitude and its number."""
    given = map(str, (*settings_of(*some, **others), samples))
    ran = subprocess.run([ROOT / "build/samples", *given], input=score, capture_output=True, check=True)
    answer = struct.unpack_from("<Q", ran.stdout)[0]
    if answer != samples << 32:
        fault(f"the library answers {answer:x} to {samples} samples")
    sections, end = -(-samples // 4096), 8 + 8 * samples
    shelf, peaks = ran.stdout[end : end + ENTRY * sections], ran.stdout[end + ENTRY * sections :]
    return ran.stdout[8:end], shelf, [*zip(struct.unpack(f"<{sections}d", peaks[: 8 * sections]), struct.unpack(f"<{sections}Q", peaks[8 * sections :]))]


def peaks_of(samples):
    """The peaks of samples, given as bytes of f64, worked out from 02's words."""
    values = struct.unpack(f"<{len(samples) // 8}d", samples)
    sections = [values[at : at + 4096] for at in range(0, len(values), 4096)]
    largest = [max(map(abs, some)) for some in sections]
    return [(most, 4096 * k + [*map(abs, some)].index(most)) for k, (some, most) in enumerate(zip(sections, largest))]


def narrow(samples):
    """Bytes of f64 as bytes of f32, each rounded to the nearest."""
    count = len(samples) // 8
    return struct.pack(f"<{count}f", *struct.unpack(f"<{count}d", samples))
