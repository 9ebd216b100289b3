#!/usr/bin/env python3
"""Solution files that Tile World has recorded, slower ones made of them, and bogus ones: solutions.py FOLDER writes them."""
import struct
import sys


def read(rules):
    """The header of a file that Tile World has recorded, and its records."""
    with open(f"examples/tile-world-{rules}.tws", "rb") as source:
        data = source.read()
    at, found = 8 + data[7], []
    while at < len(data):
        size, = struct.unpack_from("<I", data, at)
        found.append(data[at + 4:at + 4 + size])
        at += 4 + size
    return data[:8 + data[7]], found


def file_of(head, records):
    """The file with this header and these records."""
    return head + b"".join(struct.pack("<I", len(record)) + record for record in records)


def ticks_of(record):
    return int.from_bytes(record[12:16], "little")


def ticks(record, number):
    """The record with this time."""
    return record[:12] + struct.pack("<I", number) + record[16:]


def later(record, wait):
    """The same solution, begun so many ticks later. The first move is of one byte: a form, a direction, and the time before it
    less one. In the form of two bytes the time has eleven bits."""
    first, = struct.unpack_from("<B", record, 16)
    move = 2 | first & 0x1C | (first >> 5) + wait << 5
    return ticks(record, ticks_of(record) + wait)[:16] + struct.pack("<H", move) + record[17:]


LYNX, (LYNX_NAME, KEYS, _, LYNX_END) = read("lynx")
MS, (MS_NAME, _, MS_END) = read("ms")


def honest():
    """Honest files by their names, slower ones first."""
    return {
        "1-lynx": file_of(LYNX, [LYNX_NAME, later(KEYS, 40), later(LYNX_END, 20)]),
        "2-lynx": file_of(LYNX, [LYNX_NAME, later(KEYS, 50), LYNX_END]),
        "3-lynx": file_of(LYNX, [LYNX_NAME, KEYS]),
        "4-ms": file_of(MS, [MS_NAME, later(MS_END, 9)]),
        "5-ms": file_of(MS, [MS_NAME, MS_END]),
    }


def bogus():
    """Bogus files by their names, each of which has something that is better than all before, or new."""
    best = ticks_of(KEYS)
    return {
        "01-cut-short-lynx": file_of(LYNX, [LYNX_NAME, KEYS[:-10]]),
        "02-fewer-ticks-lynx": file_of(LYNX, [ticks(KEYS, best - 1), LYNX_END]),
        "03-moves-of-another-level-lynx": file_of(LYNX, [ticks(KEYS, best - 2)[:16] + LYNX_END[16:]]),
        # Tile World accepts these as they are: the ticks are not looked at while there are moves left, and the last solution of
        # a level hides the others.
        "04-moves-after-the-end-lynx": file_of(LYNX, [ticks(KEYS, best - 3) + b"\xc5" * 50]),
        "05-two-of-a-level-lynx": file_of(LYNX, [ticks(KEYS, best - 4), LYNX_END, KEYS]),
        "06-password-of-no-level-lynx": file_of(LYNX, [KEYS[:2] + b"ABCD" + KEYS[6:]]),
        "07-number-of-no-level-lynx": file_of(LYNX, [b"\x4d\0" + KEYS[2:]]),
        "08-another-set-lynx": file_of(LYNX, [b"\0" * 16 + b"other.dac\0", b"\x05\0EFGH" + KEYS[6:], b"\x06\0IJKL" + LYNX_END[6:]]),
        "09-unsolved-lynx": file_of(LYNX, [ticks(b"\x02\0JXMJ" + KEYS[6:], 0x7FFFFFFF)]),
        "10-without-moves-lynx": file_of(LYNX, [ticks(LYNX_END, 1)[:16]]),
        "11-level-0-lynx": file_of(LYNX, [b"\0\0\0\x1b[2" + KEYS[6:]]),
        # Tile World warns of one tick, and accepts it.
        "12-one-tick-ms": file_of(MS, [ticks(MS_END, ticks_of(MS_END) - 1)]),
    }


def main():
    for kind, files in ("honest", honest()), ("bogus", bogus()):
        for name, data in files.items():
            with open(f"{sys.argv[1]}/{kind}/{name}.tws", "wb") as out:
                out.write(data)


if __name__ == "__main__":
    main()
