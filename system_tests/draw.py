#!/usr/bin/env python3
"""Draws the schedule in a file as a sequence diagram, an event a row. What an event does is not computed here: it is the
difference between what `replay_schedule` prints with the event and without it."""
import subprocess
import sys
from pathlib import Path

PROGRAM = Path(__file__).resolve().parent.parent / "crates/replay_schedule/out/replay_schedule"
SERVER_HOST = "1"
REQUEST_PORT = "6969"
WIDTH = 30  # from one column to the next


def outcome(events):
    """What these events leave: for each kind of line its words, line by line."""
    text = "".join(" ".join(words) + "\n" for words in events)
    printed = subprocess.run([PROGRAM], input=text, capture_output=True, text=True, check=True).stdout
    left = {}
    for line in printed.splitlines():
        kind, *words = line.split()
        left.setdefault(kind, []).append(words)
    if "lynx" not in left:
        sys.exit(f"no run: {printed.strip()}")
    return left


def packet(digits):
    """A packet by its name (RFC 1350 section 5)."""
    data = b"" if digits == "-" else bytes.fromhex(digits)
    kind, number = int.from_bytes(data[:2], "big"), int.from_bytes(data[2:4], "big")
    if kind in (1, 2):
        return f"{('RRQ', 'WRQ')[kind - 1]} {data[2:].split(bytes(1))[0].decode()}"
    return {3: f"DATA {number}", 4: f"ACK {number}", 5: f"ERROR {number}"}.get(kind, f"{len(data)} bytes")


def size(digits):
    return f"{0 if digits == '-' else len(digits) // 2} bytes"


def news(before, after):
    """What an event did, besides what was sent."""
    def new(kind):
        return after.get(kind, [])[len(before.get(kind, [])):]

    for _, _, port, asked, _ in new("opened"):
        yield f"the server opens port {port} for a {'put' if asked == 'write' else 'get'}"
    for _, _, file in new("taken"):
        yield f"the server takes the file, {size(file)}"
    for _ in new("recovered"):
        yield "its client is told that it was not kept"
    for _ in new("sent"):
        yield "the client counts its file as sent"
    for _, _, file in new("got"):
        yield f"the client has fetched {size(file)}"


class Drawing:
    """The rows of a diagram: a column for each endpoint of a client or a stranger, and then the server's."""

    def __init__(self, events):
        self.events = events
        self.datagrams = outcome(events).get("datagram", [])
        self.delivered = {int(words[1]) for words in events if words[0] in ("deliver", "unknown-keep")}
        self.ends = []
        clients = [words[2:4] for words in events if words[0] == "begin"]
        for words in events:
            for end in {"begin": [words[2:4]], "stray": [words[1:3], words[3:5]]}.get(words[0], []):
                if end[0] != SERVER_HOST and end not in self.ends:
                    self.ends.append(end)
        names = [f"{'client' if end in clients else 'stranger'} {':'.join(end)}" for end in self.ends] + ["server"]
        self.rows = ["".join(name.ljust(WIDTH) for name in names).rstrip()]

    def column(self, end):
        return self.ends.index(end) if end in self.ends else len(self.ends)

    def row(self, note="", start=0, end=0, text="", head=""):
        """A row of bars, with an arrow from one column to another, if there is one."""
        bars = ("|" + " " * (WIDTH - 1)) * len(self.ends) + "|"
        if start != end:
            left, right = sorted((start * WIDTH, end * WIDTH))
            inner = f" {text} ".center(right - left - 2, "-")
            bars = bars[:left + 1] + (f"{inner}{head}" if start < end else f"{head}{inner}") + bars[right:]
        self.rows.append(f"{bars}  {note}".rstrip())

    def arrow(self, place, note, arrives):
        """The datagram at this place, as it arrives or is lost."""
        source_host, source_port, host, port, digits = self.datagrams[place]
        start, end = self.column([source_host, source_port]), self.column([host, port])
        ports = {source_port if start > end else port} - {REQUEST_PORT}
        side = "from" if start > end else "to"
        text = " ".join([f"{place}: {packet(digits)}"] + [f"{side} {port}" for port in ports])
        self.row(note, start, end, text, ("<>"[start < end]) if arrives else "x")

    def event(self, words, note):
        if words[0] == "begin":
            what = f"put of {size(words[4])}" if words[1] == "put" else f"get of {words[4]}"
            self.row(f"a {what} begins at {words[2]}:{words[3]}")
        elif words[0] == "deliver":
            self.arrow(int(words[1]), note, True)
        elif words[0] == "unknown-keep":
            self.arrow(int(words[1]), note, True)
            self.row("it is not known whether the file was kept; the server restarts")
        elif words[0] == "client-timeout":
            self.row(f"a time-out at {words[1]}:{words[2]}")
        elif words[0] == "server-timeout":
            self.row(f"a time-out at port {words[1]}")
        elif words[0] == "restart":
            self.row("the server restarts")
        else:
            self.row(f"a stray from {words[1]}:{words[2]}")

    def draw(self):
        before = outcome([])
        for count, words in enumerate(self.events, 1):
            after = outcome(self.events[:count])
            self.event(words, "; ".join(news(before, after)))
            for place in range(len(before.get("datagram", [])), len(after.get("datagram", []))):
                if place not in self.delivered:
                    self.arrow(place, "is lost", False)
            before = after
        return "\n".join(self.rows)


def main():
    lines = Path(sys.argv[1]).read_text().splitlines()
    events = [words for line in lines if (words := line.split("#")[0].split())]
    print(Drawing(events).draw())


if __name__ == "__main__":
    main()
