#!/usr/bin/env python3
"""A host in Python: renders the score on standard input from sample zero, and writes its samples to standard output as
they are in memory, one channel of doubles.

    examples/render.py 288000 <tune.score >tune.f64

It loads the shared library that `make install` puts where programs look for one; GAVBERIN_SO names another file, as
build/libgavberin.so.
"""
import ctypes
import os
import sys

VERSION, SECTION, STATE_WORDS = 5, 4096, 13  # GAV_VERSION, GAV_SECTION and GAV_STATE_WORDS of gavberin.h
WHOLE, NUMBER = ctypes.c_uint32, ctypes.c_double

# The settings in gav_render's order, each with its type and what GAV_SETTINGS_DEFAULT has.
SETTINGS = {
    "rate": (WHOLE, 48000),
    "code": (WHOLE, 2),
    "duty": (NUMBER, 0.5),
    "attack": (NUMBER, 0.01),
    "decay": (NUMBER, 0.1),
    "sustain": (NUMBER, 0.7),
    "release": (NUMBER, 0.3),
    "lfo_code": (WHOLE, 0),
    "lfo_duty": (NUMBER, 0.5),
    "lfo_frequency": (NUMBER, 0.0),
    "lfo_depth": (NUMBER, 0.0),
    "joined": (WHOLE, 0),
}

library = ctypes.CDLL(os.environ.get("GAVBERIN_SO", f"libgavberin.so.{VERSION}"))
library.gav_version.restype = ctypes.c_uint32
library.gav_words.argtypes = [ctypes.c_uint64]
library.gav_words.restype = ctypes.c_char_p
library.gav_render.argtypes = [kind for kind, _ in SETTINGS.values()] + [ctypes.c_void_p, ctypes.c_size_t] * 5
library.gav_render.restype = ctypes.c_uint64


def render(score, n, **given):
    """The samples of a score, the words of their shelf, and, of each section, the peak and the sample where it stands.
    Settings are given by name, as lfo_depth=1."""
    sections = -(-n // SECTION)
    out, magnitudes = (ctypes.c_double * n)(), (ctypes.c_double * sections)()
    shelf, numbers = (ctypes.c_uint64 * (sections * STATE_WORDS))(), (ctypes.c_uint64 * sections)()
    settings = {name: value for name, (_, value) in SETTINGS.items()}
    if given.keys() - settings.keys():
        raise TypeError(f"no setting: {', '.join(given.keys() - settings.keys())}")
    settings.update(given)
    lent = (word for buffer in (score, out, shelf, magnitudes, numbers) for word in (buffer, len(buffer)))
    said = library.gav_render(*settings.values(), *lent)
    number, place = said & 0xFF, said >> 8 & 0xFFFFFF
    if number:
        raise ValueError(f"refused {number} at place {place}: {library.gav_words(said).decode()}")
    return out, shelf, magnitudes, numbers


if __name__ == "__main__":
    if library.gav_version() != VERSION:
        sys.exit(f"render.py is written for version {VERSION} of the library, and this is {library.gav_version()}")
    try:
        samples = render(sys.stdin.buffer.read(), int(sys.argv[1]))[0]
    except ValueError as wrong:
        sys.exit(f"render.py: {wrong}")
    sys.stdout.buffer.write(samples)
