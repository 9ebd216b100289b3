#!/usr/bin/env python3
"""Writes a Lynx file of RECORDS solutions with MOVES bytes of moves each, to time readers with.

    make.py RECORDS MOVES [KIND] > FILE

KIND says which moves: `plain`, the default, steps 0 to 3 in turn that wait three ticks each; `short`, any steps in one byte;
`mixed`, each layout as often as in a few files that Tile World wrote, which have no codes; `even`, each layout as often as
any other. Moves that are drawn are spelled as shortly as can be, except that plain steps stay alone; the same arguments give
the same file.
"""
import random
import struct
import sys

# How often each layout is drawn: a plain step, another step in one byte, three steps, a step in two bytes, one in four,
# and a code.
SHARES = {"mixed": (5, 142, 1, 17, 1, 0), "even": (0, 1, 1, 1, 1, 1)}
# This many solutions have their own moves; the others repeat these.
DRAWN = 8


def code(draw):
    more = draw.randrange(4)
    ticks = draw.randrange((0, 1 << 2, 1 << 10, 1 << 18)[more], 1 << (2 + 8 * more))
    number = 19 + (more << 2) + (draw.randrange(512) << 5) + (ticks << 14)
    return number.to_bytes(2 + more, "little")


PIECES = (
    lambda draw: bytes([0x61 + 4 * draw.randrange(4)]),
    lambda draw: bytes([1 + 4 * draw.randrange(24)]),
    lambda draw: bytes([4 * draw.randrange(64)]),
    lambda draw: struct.pack("<H", 2 + 4 * draw.randrange(8) + (draw.randrange(1 << 3, 1 << 11) << 5)),
    lambda draw: struct.pack("<I", 3 + 4 * draw.randrange(4) + (draw.randrange(1 << 11, 1 << 27) << 5)),
    code,
)


def moves_of(kind, size, draw):
    if kind == "plain":
        return bytes(0x61 + 4 * (i % 4) for i in range(size))
    if kind == "short":
        return bytes(1 + 4 * draw.randrange(64) for _ in range(size))
    moves = bytearray()
    for piece in draw.choices(PIECES, SHARES[kind], k=size):
        more = piece(draw)
        if len(moves) + len(more) > size:
            break
        moves += more
    # Steps without a wait fill what is left.
    return bytes(moves).ljust(size, b"\x01")


def main():
    records, size = int(sys.argv[1]), int(sys.argv[2])
    kind = sys.argv[3] if len(sys.argv) > 3 else "plain"
    draw = random.Random(1)
    drawn = [moves_of(kind, size, draw) for _ in range(DRAWN if size else 1)]
    out = sys.stdout.buffer
    out.write(bytes.fromhex("35339B9901000000"))
    for i in range(records):
        moves = drawn[i % len(drawn)]
        password = bytes(65 + (i // 26**k) % 26 for k in range(4))
        body = struct.pack("<H4sBBII", 1 + i % 65535, password, i % 2, i % 64, i * 2654435761 % 2**32, i * 7919 % 2**20)
        out.write(struct.pack("<I", len(body) + len(moves)) + body + moves)


main()
