"""Rows of `hostile.py`: who improves a collection all the time, whether others are served all the same, and what a request
with a forged sender brings."""
import select
import time
from contextlib import contextmanager

from attacking import Attack, HEADER, RRQ, Server, WRQ, check, check_time, done, empty_folder, end, file, record, run


class Improver(Attack):
    """Improves a collection with each of its ends: one file of one block after another, each better than all
    before. What is not answered for a second is sent again, and after the fifth time an end begins anew."""

    def __init__(self, server, hosts):
        super().__init__({end(host, wait=0): k for k, host in enumerate(hosts)}, 1)
        self.request = WRQ, ("127.0.0.1", server.port)
        # What each one has sent, when, and how often.
        self.sent = {}
        self.ticks = 4_000_000_000
        self.taken = 0

    def send(self, own, what, tries=1):
        self.sent[own] = what, time.monotonic(), tries
        own.sendto(*what)

    def receive(self, own):
        answer, sender = own.recvfrom(2000)
        if answer == b"\0\4\0\0" and self.sent[own][0] == self.request:
            self.ticks -= 1
            self.send(own, (b"\0\3\0\1" + HEADER + record(60000 + self.ends[own], b"ZZZZ", self.ticks), sender))
        elif answer == b"\0\4\0\1":
            self.taken += 1
            self.send(own, self.request)

    def attack(self):
        for own in self.ends:
            self.send(own, self.request)
        while not self.over.is_set():
            for own, (what, when, tries) in list(self.sent.items()):
                if time.monotonic() - when > 1:
                    self.send(own, *((what, tries + 1) if tries < 5 else (self.request,)))
            for own in select.select(list(self.ends), [], [], 0.05)[0]:
                try:
                    self.receive(own)
                except OSError:
                    pass


@contextmanager
def serving(size, each):
    """A server with a collection of about so many bytes in a folder, in records of so many."""
    folder = empty_folder("paced")
    with Server("--dir", folder) as server:
        records = [record(level, moves=b"\0" * (each - 20)) for level in range(1, size // each + 1)]
        check("what is improved", server.put(file("paced.tws", *records))[0] == 0)
        yield server


def beside(name, server, hosts, seconds, puts=True):
    """Gets, and puts, of another host while these improve the collection."""
    alone = min(server.get()[2] for _ in range(2))
    gets, sent, failed = [], [], []
    with Improver(server, hosts) as improver:
        began, before = time.monotonic(), improver.taken
        while time.monotonic() < began + seconds:
            status, said, took = server.get()
            gets.append(took)
            failed += [said] if status else []
            if puts:
                status, said, took = server.put(file("honest.tws", record(50000 + len(gets), b"HONE")))
                sent.append(took)
                failed += [said] if status else []
        rate = (improver.taken - before) / (time.monotonic() - began)
    slowest = f"the slowest of {len(gets)} gets {max(gets):.2f} s, {alone:.2f} s alone"
    slowest += f", of the puts {max(sent):.2f} s" if sent else ""
    print(f"{name}: {slowest}; {rate:.1f} improvements a second")
    check(f"{name}: none fails but for its time: {failed}", all(b"timed out" in said for said in failed))
    check_time(f"{name}: none times out", not failed)
    check_time(f"{name}: the time of a get", max(gets) < 4 * alone + 1)


def improvements_stop_nobody():
    """Tiny improvements without a pause, by 32 transfers of one host, and of as many hosts."""
    one, many = ["127.0.0.2"] * 32, [f"127.0.0.{k}" for k in range(2, 34)]
    with serving(1_000_000, 1000) as server:
        beside("1 MB improved by one host", server, one, 6)
        beside("1 MB improved by 32 hosts", server, many, 6)
    with serving(8_000_000, 20_000) as server:
        beside("8 MB improved by one host", server, one, 3, puts=False)


def puts_in_a_row_are_not_slowed():
    """Fifty puts of 1 kB by a host that is alone, ten in a row, beside puts that come by themselves."""
    with serving(100_000, 1000) as server:
        level, apart, rows = 40000, 0.0, 0.0
        for _ in range(5):
            paths = [file(f"row{k}.tws", record(level + k, b"ROWS", moves=b"\0" * 980)) for k in range(20)]
            level += 20
            for path in paths[:10]:
                time.sleep(0.1)
                apart += server.put(path)[2]
            status, _, took = done(run("put", "127.0.0.1", *paths[10:], "--port", server.port))
            check("ten puts in a row", status == 0)
            rows += took
        print(f"50 puts of 1 kB: {rows:.2f} s in a row, {apart:.2f} s apart")
        check_time("puts in a row", rows < 1.5 * apart)


ROWS = improvements_stop_nobody, puts_in_a_row_are_not_slowed


def a_silent_peer_gets_the_first_block_twice():
    """A request whose sender does not answer, as a forged one's: how many blocks it brings."""
    with Server() as server:
        check("what is asked for", server.put(file("forged.tws", record(1, moves=b"\0" * 1000)))[0] == 0)
        own, began, blocks = end(wait=0.5), time.monotonic(), 0
        server.send(own, RRQ)
        while time.monotonic() - began < 6:
            try:
                blocks += own.recv(2000)[:4] == b"\0\3\0\1"
            except TimeoutError:
                pass
        print(f"a request with a forged sender: {blocks} blocks")
        check("the blocks for a forged request", blocks == 2)
