#!/usr/bin/env python3
"""Tests what a put and a get show on a terminal while they run, by a pseudo-terminal and a server that waits before each of
its answers. The last line is 'N passed, M failed'."""
import os
import pty
import re
import select
import socket
import struct
import subprocess
import sys
import tempfile
import termios
import threading
import time

PROGRAM = os.path.join(os.path.dirname(os.path.abspath(__file__)), "../crates/tws/out/tws")
SPACE = tempfile.TemporaryDirectory()
FOLDER = SPACE.name
ERASED = b"\r\x1b[K"
counts = {True: 0, False: 0}


def check(name, holds):
    counts[bool(holds)] += 1
    if not holds:
        print(f"check failed: {name}")


def tws_file(length):
    """A Lynx file of so many bytes: a header, and one solution of level 1."""
    moves = bytes(length - 28)
    return struct.pack("<IBHB", 0x999B3335, 1, 0, 0) + struct.pack("<IH4sBBII", 16 + len(moves), 1, b"BDHP", 0, 0, 0, 100) + moves


class Server(threading.Thread):
    """Answers each datagram after a pause; with a pause of None it never does. One request comes after the other."""

    def __init__(self, pause, file=b""):
        super().__init__(daemon=True)
        self.pause = pause
        self.file = file
        self.end = socket.socket(socket.AF_INET, socket.SOCK_DGRAM)
        self.end.bind(("127.0.0.1", 0))
        self.end.settimeout(30)
        self.port = self.end.getsockname()[1]
        self.start()

    def run(self):
        while True:
            data, client = self.end.recvfrom(2000)
            if self.pause is None:
                continue
            opcode, block = struct.unpack_from(">HH", data)
            time.sleep(self.pause)
            if opcode in (1, 4):
                # An RRQ asks for the first block, an ACK for the one after it.
                block = 0 if opcode == 1 else block
                body = self.file[512 * block:512 * block + 512]
                if block * 512 > len(self.file):
                    continue
                self.end.sendto(struct.pack(">HH", 3, block + 1) + body, client)
            elif opcode in (2, 3):
                self.end.sendto(struct.pack(">HH", 4, 0 if opcode == 2 else block), client)


class Run:
    """One run of the program, with its errors on a terminal, and with its output there too or in a pipe."""

    def __init__(self, words, both=False):
        ours, theirs = pty.openpty()
        attributes = termios.tcgetattr(theirs)
        attributes[1] &= ~termios.OPOST
        termios.tcsetattr(theirs, termios.TCSANOW, attributes)
        began = time.monotonic()
        process = subprocess.Popen(
            [PROGRAM, *words], stdin=subprocess.DEVNULL, stdout=theirs if both else subprocess.PIPE, stderr=theirs)
        os.close(theirs)
        self.shown = b""
        # When the terminal got its first byte, in seconds since the start.
        self.first = None
        while True:
            ready, _, _ = select.select([ours], [], [], 60)
            try:
                data = os.read(ours, 4096) if ready else b""
            except OSError:
                data = b""
            if not data:
                break
            if self.first is None:
                self.first = time.monotonic() - began
            self.shown += data
        self.out = b"" if both else process.stdout.read()
        self.status = process.wait()
        os.close(ours)

    def drawn(self):
        """The lines that were drawn, up to the last time that the line was erased."""
        return [line.decode("ascii", "replace") for line in self.shown.split(ERASED)[1:-1]]

    def screen(self):
        """What the terminal shows at the end."""
        lines, column = [""], 0
        for part in re.findall(r"\x1b\[K|\r|\n|[^\x1b\r\n]+", self.shown.decode("ascii", "replace")):
            if part == "\n":
                lines.append("")
            elif part == "\r":
                column = 0
                continue
            elif part == "\x1b[K":
                lines[-1] = lines[-1][:column]
            else:
                lines[-1] += part
            column = len(lines[-1])
        return "\n".join(lines)


def figures(lines, name, length):
    """Checks that each line is what is true of a transfer at that moment. Of a get the length is None."""
    form = r"block (\d+), (\d+) bytes, (\d+) bytes/s" + ("" if length is None else r", (\d+) bytes left")
    last = 0
    for line in lines:
        match = re.fullmatch(form, line)
        check(f"{name}, the line {line!r}", match)
        if not match:
            continue
        block, size, rate, *left = map(int, match.groups())
        check(f"{name}, its bytes: {line}", size == 512 * block and block >= last)
        # It has run for a second at least, and for ten at most.
        check(f"{name}, its rate: {line}", size / 10 <= rate <= size)
        check(f"{name}, what is left: {line}", left in ([], [(length or 0) - size]))
        last = block
    return last


def slow_put():
    data = tws_file(512 * 20 + 100)
    with open(f"{FOLDER}/slow.tws", "wb") as out:
        out.write(data)
    run = Run(["put", "127.0.0.1", f"{FOLDER}/slow.tws", "--port", str(Server(0.08).port)])
    check(f"a slow put: {run.shown}", run.status == 0 and run.out == f"sent {len(data)} bytes\n".encode())
    check(f"a slow put is shown after a second, not {run.first}", run.first and run.first >= 1)
    check("a slow put is shown more than once", len(run.drawn()) >= 3)
    check("a slow put comes far", figures(run.drawn(), "a slow put", len(data)) >= 15)
    check(f"a slow put leaves nothing: {run.shown[-60:]}", run.shown.endswith(ERASED) and run.screen() == "")


def slow_get():
    data = tws_file(512 * 20 + 100)
    words = ["get", "127.0.0.1", "lynx", f"{FOLDER}/got.tws", "--port"]
    run = Run([*words, str(Server(0.08, data).port)], both=True)
    check(f"a slow get: {run.shown}", run.status == 0 and open(f"{FOLDER}/got.tws", "rb").read() == data)
    check("a slow get is shown more than once", len(run.drawn()) >= 3)
    check("a slow get comes far", figures(run.drawn(), "a slow get", None) >= 15)
    check(f"a slow get leaves its line alone: {run.screen()!r}", run.screen() == f"got {len(data)} bytes\n")


def slow_better():
    """A get and a put, one after the other: each is shown as if it were alone."""
    theirs = tws_file(512 * 20 + 100)
    mine = theirs[:24] + struct.pack("<I", 50) + theirs[28:]
    with open(f"{FOLDER}/better.tws", "wb") as out:
        out.write(mine)
    run = Run(["put", "127.0.0.1", f"{FOLDER}/better.tws", "--better", "--port", str(Server(0.08, theirs).port)])
    says = f"levels 1 only mine 0 only theirs 0 mine better 1 theirs better 0 equal 0 tie 0\nsent {len(mine)} bytes\n"
    check(f"a slow put --better: {run.shown}", run.status == 0 and run.out == says.encode())
    lines = run.drawn()
    middle = lines.index("") if "" in lines else len(lines)
    check(f"both are shown more than once: {lines}", middle >= 3 and len(lines) - middle >= 4)
    check("its get comes far", figures(lines[:middle], "the get", None) >= 15)
    check("its put comes far", figures(lines[middle + 1:], "the put", len(mine)) >= 15)
    check(f"it leaves nothing: {run.shown[-60:]}", run.shown.endswith(ERASED) and run.screen() == "")


def quick():
    run = Run(["put", "127.0.0.1", f"{FOLDER}/slow.tws", "--port", str(Server(0).port)])
    check(f"a quick put shows nothing: {run.shown}", run.status == 0 and run.shown == b"")


def silent():
    port = Server(None).port
    run = Run(["put", "127.0.0.1", f"{FOLDER}/slow.tws", "--port", str(port)])
    check("no answer", run.status == 4)
    check(f"no answer comes nowhere: {run.drawn()}", run.drawn() and figures(run.drawn(), "no answer", 512 * 20 + 100) == 0)
    says = f"tws: no answer from 127.0.0.1 port {port}: does the archive run there, and may its answers come in?"
    check(f"no answer leaves the fault: {run.screen()!r}", run.screen() == f"tws: transfer failed: timed out\n{says}\n")


def piped():
    words = [PROGRAM, "put", "127.0.0.1", f"{FOLDER}/slow.tws", "--port", str(Server(0.08).port)]
    run = subprocess.run(words, stdin=subprocess.DEVNULL, capture_output=True)
    check(f"without a terminal nothing is shown: {run.stderr}", run.returncode == 0 and run.stderr == b"")


def names():
    """Names may have any characters. A terminal gets no control character of them, a pipe each."""
    name = f"{FOLDER}/a\x1b[2J\x7f\ré’\x9b2J.tws"
    run = Run(["show", name])
    shown = name.translate({0x1B: "?", 0x7F: "?", 13: "?"}).encode().replace("\x9b".encode(), b"\xc2?")
    check(f"a name on a terminal: {run.shown}", run.status == 2 and run.shown.startswith(b"tws: read fault\ntws: " + shown + b": "))
    piped = subprocess.run([PROGRAM, "show", name], stdin=subprocess.DEVNULL, capture_output=True)
    check(f"a name in a pipe: {piped.stderr}", piped.stderr.startswith(f"tws: read fault\ntws: {name}: ".encode()))


for test in (slow_put, slow_get, slow_better, quick, silent, piped, names):
    test()
print(f"{counts[True]} passed, {counts[False]} failed")
sys.exit(1 if counts[False] else 0)
