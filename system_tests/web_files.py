#!/usr/bin/env python3
"""web_files.py FOLDER: writes the files that the tests of the page drop on it: two players' files of a set of 149 levels, one
of the other ruleset, one with a hostile name, one of a further level, an unreadable one, a large one, and a list of the
levels."""
import pathlib
import random
import struct
import sys

LETTERS = b"ABCDEFGHIJKLMNOPQRSTUVWXYZ"
LEVELS = 149
SIGNATURE = bytes([0x35, 0x33, 0x9B, 0x99])
LYNX, MS = 1, 2


def file_of(ruleset, solved):
    parts = [SIGNATURE + bytes([ruleset, 0, 0, 0])]
    for level, password, ticks, moves in solved:
        body = struct.pack("<H4sBBII", level, password, 0, 0, 0, ticks) + moves
        parts.append(struct.pack("<I", len(body)) + body)
    return b"".join(parts)


def main():
    folder = pathlib.Path(sys.argv[1])
    draw = random.Random(4)
    passwords = [bytes(draw.choice(LETTERS) for _ in range(4)) for _ in range(LEVELS)]
    passwords[6] = b"<b>&"
    move = b"\x01"
    theirs = [(n + 1, passwords[n], draw.randint(300, 6000), move) for n in range(LEVELS)]
    shift = lambda ticks: max(1, ticks + draw.choice([0, 0, draw.randint(-300, 300)]))
    mine = [(n, password, shift(ticks), moves) for n, password, ticks, moves in theirs if draw.random() < 0.9]
    mine.append((LEVELS + 1, b"MORE", 400, move))
    ms = [(n, password, shift(ticks), moves) for n, password, ticks, moves in theirs if draw.random() < 0.5]
    large = [(n % 65535 + 1, bytes(draw.choice(LETTERS) for _ in range(4)), n % 5000, move * 1000) for n in range(20000)]
    (folder / "theirs.tws").write_bytes(file_of(LYNX, theirs))
    (folder / "mine.tws").write_bytes(file_of(LYNX, mine))
    (folder / "ms.tws").write_bytes(file_of(MS, ms))
    (folder / "hostile <b>&'.tws").write_bytes(file_of(LYNX, theirs[:9]))
    (folder / "more.tws").write_bytes(file_of(LYNX, [(LEVELS + 2, b"LAST", 500, move)]))
    (folder / "large.tws").write_bytes(file_of(MS, large))
    (folder / "cut.tws").write_bytes(pathlib.Path("examples/cut.tws").read_bytes())
    names = [f"LEVEL {n + 1}" for n in range(LEVELS)]
    names[6] = '"<i>, ""seven"""'
    lines = [f"{n + 1},{passwords[n].decode()},{names[n]},{draw.choice([0, 300, 400])}" for n in range(LEVELS)]
    (folder / "levels.csv").write_text("\n".join(["number,password,name,limit", *lines]) + "\n")


main()
