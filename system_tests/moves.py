#!/usr/bin/env python3
"""Reads timed moves from a table of the layouts alone, to compare the program with: each layout is the widths of its fields.

    moves.py             prints the figures of all byte strings of up to two bytes, for the test `all_of_two_bytes`
    moves.py FILE        prints the listing of a readable file with its moves
    moves.py pack FILE   writes the file packed: the fewest bytes are found by trying every way to go on from each move
"""
import sys

ACTS = ("step", "code")


def layout(first):
    """The fields of the piece that begins with this byte, as (name, width), and its length in bytes."""
    if first & 3 == 0:
        return [("kind", 2), ("step", 2), ("step", 2), ("step", 2)], 1
    if first & 3 == 1:
        return [("kind", 2), ("step", 3), ("wait", 3)], 1
    if first & 3 == 2:
        return [("kind", 2), ("step", 3), ("wait", 11)], 2
    if first & 16 == 0:
        return [("kind", 2), ("step", 2), ("kind", 1), ("wait", 27)], 4
    more = first >> 2 & 3
    return [("kind", 2), ("more", 2), ("kind", 1), ("code", 9), ("wait", 2 + 8 * more)], 2 + more


def read_moves(data):
    """The moves as (tick, kind, value) and None, or None and the offset of the cut piece."""
    moves, at, tick = [], 0, -1
    while at < len(data):
        fields, length = layout(data[at])
        if at + length > len(data):
            return None, at
        number, acts, wait = int.from_bytes(data[at : at + length], "little"), [], 3
        for name, width in fields:
            value, number = number % (1 << width), number >> width
            if name in ACTS:
                acts.append((name, value))
            elif name == "wait":
                wait = value
        for kind, value in acts:
            tick += wait + 1
            moves.append((tick, kind, value))
        at += length
    return moves, None


def alone(wait, kind, value):
    """The pieces that hold one move, from the same table."""
    found = []
    for first in range(256):
        fields, length = layout(first)
        widths = dict(fields)
        if sum(name in ACTS for name, _ in fields) > 1 or kind not in widths:
            continue
        if value >= 1 << widths[kind] or wait >= 1 << widths["wait"]:
            continue
        number, low = first, 0
        for name, width in fields:
            if name in ACTS or name == "wait":
                number &= ~(((1 << width) - 1) << low)
                number |= (value if name in ACTS else wait) << low
            low += width
        if number & 255 == first:
            found.append(number.to_bytes(length, "little"))
    return found


def shortest(moves):
    """The fewest bytes that spell moves; where there is a choice, three moves in one byte as early as can be."""
    waits = [(at - (moves[i - 1][0] + 1 if i else 0), kind, value) for i, (at, kind, value) in enumerate(moves)]
    plain = [wait == 3 and kind == "step" and value < 4 for wait, kind, value in waits]
    best = [b""] * (len(waits) + 1)
    for i in range(len(waits) - 1, -1, -1):
        ways = [min(alone(*waits[i]), key=len) + best[i + 1]]
        if all(plain[i : i + 3]) and i + 3 <= len(waits):
            byte = sum(waits[i + j][2] << 2 + 2 * j for j in range(3))
            ways.insert(0, bytes([byte]) + best[i + 3])
        best[i] = min(ways, key=len)
    return best[0]


def packed(data):
    """A readable file with each solution's moves in the fewest bytes."""
    at = 8 + data[7]
    out = data[:at]
    while at < len(data):
        size = int.from_bytes(data[at : at + 4], "little")
        body = data[at + 4 : at + 4 + size]
        at += 4 + size
        if size >= 16 and body[:6] != bytes(6):
            body = body[:16] + shortest(read_moves(body[16:])[0])
        out += len(body).to_bytes(4, "little") + body
    return out


def figures():
    """How many are cut, how many moves the others have, and a sum over all, each in order."""
    strings = [b""] + [bytes([a]) for a in range(256)] + [bytes([a, b]) for a in range(256) for b in range(256)]
    cut = count = total = 0
    for data in strings:
        moves, at = read_moves(data)
        if moves is None:
            cut += 1
            total = (total * 31 + 7 + at) % 1_000_003
            continue
        count += len(moves)
        for tick, kind, value in moves:
            total = (total * 31 + tick) % 1_000_003
            total = (total * 31 + value + (1000 if kind == "code" else 0)) % 1_000_003
        total = (total * 31 + 5) % 1_000_003
    return cut, count, total


def listing(data):
    """The listing of a file that is readable, moves and all."""
    extra = data[7]
    lines = [f"ruleset {['', 'lynx', 'ms'][data[4]]} word {data[5]:02x}{data[6]:02x} extra {extra}"]
    at, records = 8 + extra, 0
    while at < len(data):
        size = int.from_bytes(data[at : at + 4], "little")
        body = data[at + 4 : at + 4 + size]
        at, records = at + 4 + size, records + 1
        if size == 0:
            lines.append("pad")
            continue
        number, password = int.from_bytes(body[:2], "little"), body[2:6]
        if number == 0 and password == bytes(4):
            lines.append(f"set {size - 6}")
            continue
        key = password.decode() if password.isalpha() and password.isascii() else "x" + password.hex()
        if size == 6:
            lines.append(f"level {number} {key}")
            continue
        ticks, seed = int.from_bytes(body[12:16], "little"), int.from_bytes(body[8:12], "little")
        lines.append(f"level {number} {key} ticks {ticks} flags {body[6]:02x} start {body[7]:02x} seed {seed} bytes {size - 16}")
        lines += [f" at {tick} {kind} {value}" for tick, kind, value in read_moves(body[16:])[0]]
    return "\n".join(lines + [f"records {records}"]) + "\n"


if __name__ == "__main__":
    if sys.argv[1:2] == ["pack"]:
        sys.stdout.buffer.write(packed(open(sys.argv[2], "rb").read()))
    elif len(sys.argv) > 1:
        sys.stdout.write(listing(open(sys.argv[1], "rb").read()))
    else:
        print(*figures())
