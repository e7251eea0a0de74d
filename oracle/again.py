#!/usr/bin/env python3
"""The rows once more, from the steps of documents 01 and 02, in exact fractions: oracle/again.py PART FILE [..].

Every operation is done without rounding and then rounded once by `rounded` below, so the result depends neither on the
processor's floats nor on the original's text. Says how many rows agree, exits 1 if one does not. The parts are the
leaves: phase, polyblep, lanes, envelope, waveform and voice, whose pitches are those of the definition's list, and
sine, which is measured, and whose rows must also be sines by Python's library. Of `blocks` the rows of a rounded
triangle alone are taken; all its rows and the renders are compared with the reference voice (tests/reference).
`corner`, of a file of polyblep, measures how far the rounded triangle's correction, in floats, is from 02's exact one.
"""

import functools
import math
import re
import struct
import sys
from fractions import Fraction
from pathlib import Path


def rounded(exact, bits, lowest, negative_zero=False):
    """The nearest number of `bits` digits, ties to even; no digit below 2^lowest; too large is infinite."""
    if exact == 0:
        return -0.0 if negative_zero else 0.0
    over, under = abs(exact.numerator), exact.denominator
    top = over.bit_length() - under.bit_length()
    if over << max(-top, 0) < under << max(top, 0):
        top -= 1
    unit = max(top - bits + 1, lowest)
    under <<= max(unit, 0)
    whole, rest = divmod(over << max(-unit, 0), under)
    if 2 * rest > under or (2 * rest == under and whole % 2 == 1):
        whole += 1
    try:
        found = math.ldexp(whole, unit)
    except OverflowError:
        found = math.inf
    # The largest f32 exponent is 127; f64 is bounded by ldexp itself.
    if bits == 24 and found >= 2.0**128:
        found = math.inf
    return -found if exact < 0 or (found == 0 and negative_zero) else found


class Floats:
    """One format's operations on numbers held in Python floats, each rounded once.

    Of infinities and NaN nothing is rounded: those Python adds and multiplies itself.
    """

    def __init__(self, bits, lowest):
        self.bits, self.lowest = bits, lowest

    def near(self, exact, negative_zero=False):
        return rounded(exact, self.bits, self.lowest, negative_zero)

    def add(self, a, b):
        if not (finite(a) and finite(b)):
            return a + b
        return self.near(Fraction(a) + Fraction(b), a == 0 == b and minus(a) and minus(b))

    def sub(self, a, b):
        return self.add(a, -b)

    def mul(self, a, b):
        if not (finite(a) and finite(b)):
            return a * b
        return self.near(Fraction(a) * Fraction(b), minus(a) != minus(b))

    def div(self, a, b):
        if b == 0:
            return a * math.copysign(math.inf, b)
        if not (finite(a) and finite(b)):
            return a / b
        return self.near(Fraction(a) / Fraction(b), minus(a) != minus(b))

    def fraction(self, x):
        """x - floor(x), where floor(-0) is -0, and an infinity its own."""
        floor = float(math.floor(Fraction(x))) if finite(x) and x != 0 else x
        return self.sub(x, floor)


def minus(x):
    return math.copysign(1.0, x) < 0


SINGLE = Floats(24, -149)
DOUBLE = Floats(53, -1074)
THIRD = rounded(Fraction(1, 3), 53, -1074)


def float_of(word, wide):
    return struct.unpack("<d" if wide else "<f", struct.pack("<Q" if wide else "<I", word))[0]


def bits_of(x, wide):
    return struct.unpack("<Q" if wide else "<I", struct.pack("<d" if wide else "<f", x))[0]


def says(number, count):
    """An answer in one word; none of a leaf has a place."""
    return number | count << 32


def finite(x):
    return -math.inf < x < math.inf


# The accumulator.


def phase_answer(op, phase_bits, increment_bits, a_bits, b_bits):
    phase, increment, a, b = (float_of(w, False) for w in (phase_bits, increment_bits, a_bits, b_bits))
    value, after, step = 0.0, phase, increment
    accepted = 0 <= phase <= 1 and finite(increment)
    if op == 0:
        accepted = accepted and finite(a) and finite(b) and b > 0
        if accepted:
            step = SINGLE.div(a, b)
            accepted = finite(step)
    elif op in (1, 5):
        accepted = accepted and finite(a)
    if op == 7:
        return (0, 0, 0, 0)
    if not accepted:
        return (9, 0, phase_bits, increment_bits)
    if op == 1:
        step = a
    elif op == 2:
        value = increment
    elif op == 3:
        value, after = phase, SINGLE.fraction(SINGLE.add(phase, increment))
    elif op == 4:
        value = phase
    elif op == 5:
        after = SINGLE.fraction(a)
    elif op == 6:
        after = 0.0
    return (0, bits_of(value, False), bits_of(after, False), bits_of(step, False))


# The corrections and the waveforms.

add, sub, mul, div = DOUBLE.add, DOUBLE.sub, DOUBLE.mul, DOUBLE.div


def blep(t, dt):
    if t < dt:
        x = div(t, dt)
        return sub(sub(mul(2.0, x), mul(x, x)), 1.0)
    if t > sub(1.0, dt):
        x = div(sub(t, 1.0), dt)
        return add(add(mul(x, x), mul(2.0, x)), 1.0)
    return 0.0


def blamp(t, dt):
    if t < dt:
        x = div(t, dt)
        x2 = mul(x, x)
        x3 = mul(x2, x)
        return mul(sub(sub(x2, mul(x3, THIRD)), x), dt)
    if t > sub(1.0, dt):
        x = div(sub(t, 1.0), dt)
        x2 = mul(x, x)
        x3 = mul(x2, x)
        return mul(add(add(mul(x3, THIRD), x2), x), dt)
    return 0.0


def rounded_blamp(t, dt):
    """02, R-11: both branches of blamp "plus one third before the multiplication by dt"."""
    if t < dt:
        x = div(t, dt)
        x2 = mul(x, x)
        x3 = mul(x2, x)
        return mul(add(sub(sub(x2, mul(x3, THIRD)), x), THIRD), dt)
    if t > sub(1.0, dt):
        x = div(sub(t, 1.0), dt)
        x2 = mul(x, x)
        x3 = mul(x2, x)
        return mul(add(add(add(mul(x3, THIRD), x2), x), THIRD), dt)
    return 0.0


def saw(phase, dt):
    return sub(sub(mul(2.0, phase), 1.0), blep(phase, dt))


def square(phase, dt):
    naive = 1.0 if phase < 0.5 else -1.0
    return sub(add(naive, blep(phase, dt)), blep(DOUBLE.fraction(add(phase, 0.5)), dt))


def pulse(phase, dt, duty):
    naive = 1.0 if phase < duty else -1.0
    falling = DOUBLE.fraction(add(sub(phase, duty), 1.0))
    return sub(add(naive, blep(phase, dt)), blep(falling, dt))


def cornered(phase, dt, factor, correction):
    naive = sub(mul(4.0, phase), 1.0) if phase < 0.5 else sub(3.0, mul(4.0, phase))
    first = add(naive, mul(factor, correction(phase, dt)))
    return sub(first, mul(factor, correction(DOUBLE.fraction(add(phase, 0.5)), dt)))


def triangle(phase, dt):
    return cornered(phase, dt, 8.0, blamp)


def rounded_triangle(phase, dt):
    """02, R-11: "factor 4"."""
    return cornered(phase, dt, 4.0, rounded_blamp)


def polyblep_answer(op, phase_bits, dt_bits, duty_bits):
    phase, dt, duty = (float_of(w, True) for w in (phase_bits, dt_bits, duty_bits))
    if op > 5:
        value = (rounded_blamp if op == 6 else rounded_triangle)(phase, dt)
        return (0, bits_of(value if value == value else math.nan, True))
    if not (0 <= phase <= 1 and 0 <= dt <= 4 and (op != 4 or 0 <= duty <= 1)):
        return (9, 0)
    calls = [blep, blamp, saw, square, lambda p, d: pulse(p, d, duty), triangle]
    return (0, bits_of(calls[op](phase, dt), True))


# The lanes.


def chosen(t, dt, after, before):
    """02, R-10: "the later test wins". The value that is not chosen, which may be none (0/0), is not worked out."""
    if t > sub(1.0, dt):
        return before(div(sub(t, 1.0), dt))
    return after(div(t, dt)) if t < dt else 0.0


def blep_lane(t, dt):
    return chosen(
        t,
        dt,
        lambda x: sub(sub(mul(2.0, x), mul(x, x)), 1.0),
        lambda x: add(add(mul(x, x), mul(2.0, x)), 1.0),
    )


def blamp_lane(t, dt):
    def after(x):
        return mul(sub(sub(mul(x, x), mul(mul(mul(x, x), x), THIRD)), x), dt)

    def before(x):
        return mul(add(add(mul(mul(mul(x, x), x), THIRD), mul(x, x)), x), dt)

    return chosen(t, dt, after, before)


def lane_value(op, t, dt, duty, sample):
    """One lane of a call; the numbers of the apply calls are those of the waveforms."""
    if op < 2:
        return (blep_lane, blamp_lane)[op](t, dt)
    if op == 2:
        return sub(sample, blep_lane(t, dt))
    other = DOUBLE.fraction(add(sub(t, duty), 1.0) if op == 4 else add(t, 0.5))
    if op == 5:
        return sub(add(sample, mul(8.0, blamp_lane(t, dt))), mul(8.0, blamp_lane(other, dt)))
    return sub(add(sample, blep_lane(t, dt)), blep_lane(other, dt))


def lanes_answer(op, *given):
    floats = [float_of(word, True) for word in given]
    ts, duty, samples = floats[:4], floats[8], floats[9:]
    dts = floats[4:8] if op < 2 else 4 * [floats[4]]
    phases_fit = all(0 <= t <= 1 for t in ts) and all(0 <= dt <= 4 for dt in dts)
    samples_fit = op < 2 or all(finite(x) for x in samples)
    if not (phases_fit and samples_fit and (op != 4 or 0 <= duty <= 1)):
        return (9,) + (4 * (0,) if op < 2 else given[9:])
    lanes = zip(ts, dts, samples)
    return (0,) + tuple(bits_of(lane_value(op, t, dt, duty, sample), True) for t, dt, sample in lanes)


# The envelope.

IDLE, ATTACK, DECAY, SUSTAIN, RELEASE = range(5)
UNWRITTEN = bits_of(42.0, True)


def clamped(low, high, x):
    return low if x < low else high if x > high else x


def envelope_step(settings, sample_time, state):
    """One sample: the stage, level, stage_time and release_level after it."""
    attack, decay, sustain, release = settings
    stage, level, time, release_level = state
    if stage == IDLE:
        level = 0.0
    elif stage == SUSTAIN:
        level = sustain
    elif stage == ATTACK:
        level = div(time, attack)
        if level >= 1:
            stage, level, time = DECAY, 1.0, 0.0
    elif stage == DECAY:
        level = sub(1.0, mul(sub(1.0, sustain), div(time, decay)))
        if level <= sustain:
            stage, level, time = SUSTAIN, sustain, 0.0
    else:
        level = mul(release_level, sub(1.0, div(time, release)))
        if level <= 1e-6:
            stage, level, time = IDLE, 0.0, 0.0
    if stage not in (IDLE, SUSTAIN):
        time = add(time, sample_time)
    return stage, level, time, release_level


def usable(settings):
    attack, decay, sustain, release = settings
    attack, decay, release = (clamped(0.001, 10.0, x) for x in (attack, decay, release))
    return attack, decay, clamped(0.0, 1.0, sustain), release


def envelope_answer(op, *given):
    settings = [float_of(w, True) for w in given[:4]]
    rate, length, stage = given[4:7]
    level, time, release_level = (float_of(w, True) for w in given[7:])
    state, slots = (stage, level, time, release_level), []
    if op == 3 and not (all(x == x for x in settings) and 8000 <= rate <= 192000):
        return (6,) + given[6:] + 8 * (UNWRITTEN,)
    if op != 4 and not (0 <= level <= 1 and 0 <= release_level <= 1 and 0 <= time <= 11):
        return (9,) + given[6:] + 8 * (UNWRITTEN,)
    if op == 0:
        state = (ATTACK, level, 0.0, release_level)
    elif op == 1 and stage != IDLE:
        state = (RELEASE, level, 0.0, level)
    elif op in (2, 4):
        state = (IDLE, 0.0, 0.0, 0.0)
    elif op == 3:
        for _ in range(length):
            state = envelope_step(usable(settings), div(1.0, float(rate)), state)
            slots.append(bits_of(state[1], True))
    after = (state[0],) + tuple(bits_of(x, True) for x in state[1:])
    return (says(0, length),) + after + tuple(slots) + (8 - length) * (UNWRITTEN,)


# The waveforms in radians.

TAU = float_of(0x401921FB54442D18, True)
INV_TAU = float_of(0x3FC45F306DC9C883, True)


def remainder(x):
    """x % TAU, which is exact and has the sign of x."""
    left = float(Fraction(abs(x)) % Fraction(TAU))
    return -left if minus(x) else left


def reduced(x):
    left = remainder(x)
    return add(left, TAU) if left < 0 else left


def waveform_value(shape, phase, dt, duty):
    """Of Square to Pulse, 1 to 4, and of 6: a sine is measured at u itself, and here only refused."""
    calls = {1: square, 2: saw, 3: triangle, 4: lambda p, d: pulse(p, d, duty), 6: rounded_triangle}
    return calls[shape](phase, dt)


def radians_block(shape, duty, phase, step, scale, length):
    """The samples, and the phase after them, which is not reduced."""
    samples, dt = [], mul(step, INV_TAU)
    for _ in range(length):
        value = waveform_value(shape, mul(remainder(phase), INV_TAU), dt, duty)
        samples.append(mul(value, scale))
        phase = add(phase, step)
    return samples, phase


def waveform_answer(op, shape, *given):
    duty, phase, step, scale = (float_of(w, True) for w in given[:4])
    number, after, samples = 0, 0.0, []
    if op in (2, 3):
        if shape == 4 and not 0 <= duty <= 1:
            number = 6
        elif not (0 <= phase <= 1 and 0 <= step <= 4):
            number = 9
        samples.append(waveform_value(shape, phase, step, duty) if number == 0 else 0.0)
    else:
        samples, after = radians_block(shape, duty, phase, step, scale, given[4])
    if op == 1:
        after = reduced(after)
    slots = [bits_of(x, True) for x in samples] + (8 - len(samples)) * [UNWRITTEN]
    return (number, bits_of(after, True)) + tuple(slots)


# The blocks of a rounded triangle.


def block_answer(op, shape, duty_bits, rate, frequency_bits, depth_bits, phase_bits, length):
    # A reset sets the phase back before the block is played.
    start, highest = 0 if op in (3, 4) else phase_bits, 100.0 if op in (1, 4) else 20000.0
    duty, frequency, depth, phase = (float_of(w, True) for w in (duty_bits, frequency_bits, depth_bits, start))
    fits = 0 <= frequency <= highest and 0 <= depth <= 1 and 0 <= phase < 1000
    number = 6 if not 8000 <= rate <= 192000 else 0 if fits else 9
    if number:
        return (number, start) + length * (UNWRITTEN,)
    step = mul(div(frequency, float(rate)), TAU)
    samples, after = radians_block(shape, duty, phase, step, depth, length)
    return (says(0, length), bits_of(reduced(after), True)) + tuple(bits_of(x, True) for x in samples)


def compare_blocks(path):
    """Each op must be there, done and refused."""
    data, at, seen, total, equal = Path(path).read_bytes(), 0, set(), 0, 0
    while at < len(data):
        end = at + 80 + 8 * struct.unpack_from("<Q", data, at + 56)[0]
        row = struct.unpack(f"<{(end - at) // 8}Q", data[at:end])
        at = end
        if row[1] == 6:
            total += 1
            equal += block_answer(*row[:8]) == row[8:]
            seen.add((row[0], row[8] % 256))
    print(f"blocks: {total} rows of a rounded triangle, {equal} equal")
    return equal == total and seen == {(op, number) for op in range(6) for number in (0, 6, 9)}


# The voice.

NO_NOTE = 256
# What a lift says: 0 no change, 1 released, or this and the note that the voice fell back to.
FELL_BACK = 256
HIGHEST = 12544.0


@functools.cache
def pitches():
    """The bits of the 128 pitches, as the definition lists them."""
    text = (Path(__file__).parent.parent / "crates/pitch/specs/Patterns.antt").read_text()
    return [int(bits, 16) for bits in re.findall(r"0x([0-9a-f]{8}) ∷", text)]


def struck(note, velocity):
    """The bits of velocity and frequency of a key that sounds."""
    return bits_of(SINGLE.div(float(velocity), 127.0), False), pitches()[note]


def voice_words(active, held, loudness, pitch):
    """A state's words: the gate is up where a note sounds, and the unused pairs are 0."""
    notes, velocities = (bytes(column) for column in zip(*held, *(16 - len(held)) * [(0, 0)]))
    return (active, int(active != NO_NOTE), len(held)) + struct.unpack("<8I", notes + velocities) + (loudness, pitch)


def is_voice(active, gate, count, pairs, loudness, pitch):
    in_range = all(x <= 127 for pair in pairs[:count] for x in pair)
    unused = all(pair == (0, 0) for pair in pairs[count:])
    note = active <= 127 and gate == 1 or active == NO_NOTE and gate == 0
    return note and count <= 16 and in_range and unused and 0 <= loudness <= 1 and 0 < pitch <= HIGHEST


def voice_answer(op, *given):
    active, gate, count = given[:3]
    arrays = struct.pack("<8I", *given[3:11])
    pairs = list(zip(arrays[:16], arrays[16:]))
    sound, (note, velocity) = given[11:13], given[13:]
    fresh = voice_words(NO_NOTE, [], 0, bits_of(440.0, False))
    if op == 5:
        return (0, 0) + fresh
    floats = (float_of(bits, False) for bits in sound)
    if note > 127 or velocity > 127 or not is_voice(active, gate, count, pairs, *floats):
        return (9, 0) + given[:13]
    held = pairs[:count]
    if op == 0:
        return (0, 0) + voice_words(note, (held + [(note, velocity)])[:16], *struck(note, velocity))
    if op == 1:
        held = [pair for pair in held if pair[0] != note]
        if note != active:
            return (0, 0) + voice_words(active, held, *sound)
        if held:
            return (0, FELL_BACK + held[-1][0]) + voice_words(held[-1][0], held, *struck(*held[-1]))
        return (0, 1) + voice_words(NO_NOTE, held, *sound)
    if op == 2:
        return (0, 0) + fresh
    return (0, int(active != NO_NOTE) if op == 3 else count) + given[:13]


# The sine, which is ours.


def quarter_wave():
    text = (Path(__file__).parent.parent / "crates/sine/src/table.rt").read_text()
    return [float(entry) for entry in re.findall(r"\d+", text.partition("[u32; 1025] = [")[2].partition("]")[0])]


WAVE = quarter_wave()


def sine(u):
    point = mul(u, 4096.0)
    i = math.floor(point)
    part = sub(point, float(i))
    if i == 4096:
        i, part = 0, 0.0
    quadrant, j = divmod(i, 1024)
    a, b = (WAVE[j], WAVE[j + 1]) if quadrant % 2 == 0 else (WAVE[1024 - j], WAVE[1023 - j])
    if quadrant > 1:
        a, b = 0.0 - a, 0.0 - b
    return div(add(a, mul(sub(b, a), part)), 2.0**30)


def measure(path):
    """How far our sine is from the rows', and theirs from another library's."""
    total, within, largest, fine = 0, 0, Fraction(0), True
    for u, theirs in struct.iter_unpack("<2d", open(path, "rb").read()):
        total += 1
        off = abs(Fraction(sine(u)) - Fraction(theirs))
        within += off <= Fraction(1, 10**6)
        largest = max(largest, off)
        if abs(theirs - math.sin(mul(u, TAU))) > 1e-15:
            fine = False
            print("sine: the row of", u.hex(), "is not a sine's")
    print(f"sine: {total} rows, {within} within 0.000001, largest difference {math.ceil(largest * 10**9)} billionths")
    return fine and within == total > 0


# The corner, in exact fractions.

# From this dt on no correction but 0 is so small that it lacks digits.
LEAST = Fraction(1, 2**900)
# Nine roundings, from x to the product with dt and that of the third itself, each off by at most 2^-54 of dt.
MOST = Fraction(9, 2**54)


def exact_corner(t, dt):
    """02, R-11: "With x the distance in steps the exact correction is then (1 - x)^3 * dt/3 on either side"."""
    x = (t if t < dt else 1 - t) / dt
    return (1 - x) ** 3 * dt / 3


def measure_corner(path):
    """How far the rows' corrections within a step of the corner are from that one, as parts of dt."""
    total, largest = 0, Fraction(0)
    for op, t, dt, _, _, value in struct.iter_unpack("<Q3dQd", open(path, "rb").read()):
        if op != 6 or not (0 <= t <= 1 and LEAST <= dt <= 4 and (t < dt or t > 1.0 - dt)):
            continue
        total += 1
        t, dt = Fraction(t), Fraction(dt)
        largest = max(largest, abs(Fraction(value) - exact_corner(t, dt)) / dt)
    units = math.ceil(largest * 2**53 * 100) / 100
    print(f"corner: {total} corrections within {units:.2f} * 2^-53 * dt of (1 - x)^3 * dt/3")
    return total > 0 and largest <= MOST


ROUNDED_OPS = {"rounded 0": {0}, "rounded 1": {0}, "rounded 2": {0, 9}}
# part: words, how many of them are given, what answers, and every op with the numbers that it must be seen with; in
# `waveform` the ops of a rounded triangle are counted apart
PARTS = {
    "phase": ("<9I", 5, phase_answer, {op: {0, 9} if op < 7 else {0} for op in range(8)}),
    "polyblep": ("<6Q", 4, polyblep_answer, {op: {0, 9} if op < 6 else {0} for op in range(8)}),
    "lanes": ("<19Q", 14, lanes_answer, {op: {0, 9} for op in range(6)}),
    "envelope": ("<24Q", 11, envelope_answer, {0: {0, 9}, 1: {0, 9}, 2: {0, 9}, 3: {0, 6, 9}, 4: {0}}),
    "waveform": ("<17Q", 7, waveform_answer, {0: {0}, 1: {0}, 2: {0, 6, 9}, 3: {9}} | ROUNDED_OPS),
    "voice": ("<31I", 16, voice_answer, {op: {0, 9} if op < 5 else {0} for op in range(6)}),
}


def compare(name, path):
    """Works every row out again; each op must be there with each of its numbers."""
    layout, given, answer, numbers = PARTS[name]
    total = equal = 0
    seen = {op: set() for op in numbers}
    for row in struct.iter_unpack(layout, open(path, "rb").read()):
        total += 1
        is_rounded = name == "waveform" and row[1] == 6
        seen[f"rounded {row[0]}" if is_rounded else row[0]].add(row[given] % 256)
        if answer(*row[:given]) == row[given:]:
            equal += 1
        elif total - equal < 5:
            print(name, [f"{w:x}" for w in row], [f"{w:x}" for w in answer(*row[:given])])
    print(f"{name}: {total} rows, {equal} equal")
    if seen != numbers:
        print(f"{name}: the ops have numbers {seen}, not {numbers}")
    return equal == total and seen == numbers


if __name__ == "__main__":
    pairs = list(zip(sys.argv[1::2], sys.argv[2::2]))
    others = {"sine": measure, "corner": measure_corner, "blocks": compare_blocks}
    if len(sys.argv) < 3 or len(sys.argv) % 2 == 0 or any(name not in [*PARTS, *others] for name, _ in pairs):
        sys.exit("oracle/again.py PART FILE [PART FILE ..]")
    fine = [others[name](path) if name in others else compare(name, path) for name, path in pairs]
    sys.exit(0 if all(fine) else 1)
