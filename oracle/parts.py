#!/usr/bin/env python3
"""The parts of the replay's input: oracle/parts.py FILE FOLDER writes the rows of each to FOLDER/PART, without heads.

A head is the part's name, with zeros up to eight bytes, and how many rows follow.
"""
import struct
import sys
from pathlib import Path

HEAD = struct.Struct("<8sQ")

# A part's rows: bytes in a word, words in a row, and how many of them are given; the rest is the answer.
SHAPES = {
    "phase": (4, 9, 5),
    "polyblep": (8, 6, 4),
    "pitch": (8, 4, 1),
    "sine": (8, 2, 1),
    "envelope": (8, 24, 11),
    "waveform": (8, 17, 7),
    "voice": (4, 31, 16),
    "blocks": (8, 10, 8),
    "render": (8, 45, 31),
    "lanes": (8, 19, 14),
}
# A row of these goes on: this word of it says by how many.
MORE = {"blocks": 7, "render": 1}


def head(part, count):
    return HEAD.pack(part.encode(), count)


def joined(part, rows):
    return head(part, len(rows)) + b"".join(rows)


def size(part, data, at):
    """Bytes in the row that begins there."""
    word, words, _ = SHAPES[part]
    more = struct.unpack_from("<Q", data, at + 8 * MORE[part])[0] if part in MORE else 0
    return word * (words + more)


def parts(data):
    """The rows of each part, by its name."""
    at, found = 0, {}
    while at < len(data):
        name, count = HEAD.unpack_from(data, at)
        part, at = name.rstrip(b"\0").decode(), at + HEAD.size
        rows = found[part] = []
        for _ in range(count):
            rows.append(data[at : at + size(part, data, at)])
            at += len(rows[-1])
    return found


if __name__ == "__main__":
    if len(sys.argv) != 3:
        sys.exit("oracle/parts.py FILE FOLDER")
    for part, rows in parts(Path(sys.argv[1]).read_bytes()).items():
        Path(sys.argv[2], part).write_bytes(b"".join(rows))
