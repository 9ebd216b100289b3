#!/usr/bin/env python3
"""Writes FILES Lynx solution files of RECORDS solutions each, to time `tws best` with.

    make_many.py FOLDER FILES RECORDS [LEVELS MOVES]

Half of each file's keys are those of the file before it, in mixed order. With LEVELS each file has solutions of RECORDS out
of that many levels, drawn anew, with MOVES bytes of moves each: about what a community of players has.
"""
import os
import random
import struct
import sys


def solution(key, ticks, moves):
    password = bytes(65 + key // 26**place % 26 for place in range(4))
    return struct.pack("<IH4sBBII", 16 + len(moves), 1 + key % 65535, password, 0, 0, key, ticks) + moves


def shared_by_two(k, records):
    for i in range(records):
        key = k * (records // 2) + i * 7919 % records
        yield solution(key, (key * 2654435761 + k * 40503) % 100_000, b"")


def of_levels(draw, records, levels, size):
    for key in draw.sample(range(levels), records):
        moves = bytes(1 + 4 * draw.randrange(64) for _ in range(size))
        yield solution(key, draw.randrange(1000, 20_000), moves)


def main():
    folder, files, records = sys.argv[1], int(sys.argv[2]), int(sys.argv[3])
    draw = random.Random(1)
    for k in range(files):
        if len(sys.argv) > 4:
            solutions = of_levels(draw, records, int(sys.argv[4]), int(sys.argv[5]))
        else:
            solutions = shared_by_two(k, records)
        with open(os.path.join(folder, f"{k}.tws"), "wb") as out:
            out.write(bytes.fromhex("35339B9901000000"))
            for one in solutions:
                out.write(one)


main()
