"""Rows of `hostile.py`: who holds the places of a server, and whether others get in all the same."""
import os
import select
import socket
import time

from attacking import Attack, FOLDER, Flood, HEADER, Server, WRQ, check, check_time, done, end, file, record, run

BLOCK = b"\0\3\0\1" + HEADER + bytes(504)


class Holder(Attack):
    """Holds a place with each of its ends: a request, one block, and that block again every 0.9 s. An end whose
    block is not acknowledged begins anew."""

    def __init__(self, server, hosts, ends, to="127.0.0.1"):
        super().__init__([end(hosts[k % len(hosts)], wait=0) for k in range(ends)], 1.5)
        self.server = to, server.port
        # Where each one's transfer is, and when it answered.
        self.ports, self.answered = {}, {}
        self.begun = 0

    def receive(self, until):
        while not self.over.is_set() and time.monotonic() < until:
            for own in select.select(self.ends, [], [], 0.02)[0]:
                answer, sender = own.recvfrom(2000)
                if answer[:2] == b"\0\4":
                    self.answered[own] = time.monotonic()
                    if self.ports.get(own) != sender:
                        self.ports[own] = sender
                        own.sendto(BLOCK, sender)

    def attack(self):
        while not self.over.is_set():
            now = time.monotonic()
            for own in self.ends:
                if now - self.answered.get(own, 0) < 2:
                    own.sendto(BLOCK, self.ports[own])
                else:
                    own.sendto(WRQ, self.server)
                    self.begun += 1
            self.receive(now + 0.9)


def others_get_in(name, server, to="127.0.0.1", count=20):
    """So many gets, one after another, each within two seconds. One that comes while nobody may give way yet is refused, and
    tried again."""
    got, again, slowest = 0, 0, 0
    for _ in range(count):
        began = time.monotonic()
        for _ in range(4):
            status, said, _ = done(run("get", to, "lynx", os.path.join(FOLDER, "held"), "--port", server.port))
            if b"server busy" not in said:
                break
            again += 1
            time.sleep(0.3)
        took = time.monotonic() - began
        check(f"{name}: a get: {said}", status == 0 or b"server busy" in said or b"timed out" in said)
        got += status == 0 and took < 2
        slowest = max(slowest, took)
    print(f"{name}: {got} of {count} gets, {again} tries more, the slowest {slowest:.2f} s")
    check_time(name, got == count)


def one_collection(server):
    check("what is fetched", server.put(file("held.tws", record(1)))[0] == 0)


def requests_alone_hold_no_place():
    """Requests of two hosts that never follow, thirteen a second: as many as took all places for five seconds each."""
    with Server() as server:
        one_collection(server)
        with Flood(server.port, 13, hosts=("127.0.0.3", "127.0.0.4"), ends=64, junk=WRQ):
            time.sleep(6)
            others_get_in("64 requests of two hosts every five seconds", server)


def slow_transfers_give_way():
    """Two hosts that hold all 64 places with a block a second each."""
    with Server() as server:
        one_collection(server)
        with Holder(server, ("127.0.0.3", "127.0.0.4"), 64):
            others_get_in("64 places of two hosts, held by a block a second", server)


def neighbours_give_way():
    """One host that holds its 32 places: others of the same host get in at the second try."""
    host = own_address()
    if host is None:
        print("the places of one host: not tried, since this host has no other address than 127.x.x.x")
        return
    with Server() as server:
        one_collection(server)
        with Holder(server, (host,), 32, to=host):
            others_get_in("32 places of one host, held by a block a second", server, to=host)


def own_address():
    """An address of this host that is not of the loopback range, if it has one."""
    with socket.socket(socket.AF_INET, socket.SOCK_DGRAM) as probe:
        try:
            probe.connect(("192.0.2.1", 9))
            host = probe.getsockname()[0]
        except OSError:
            return None
    return None if host.startswith("127.") else host


ROWS = requests_alone_hold_no_place, slow_transfers_give_way, neighbours_give_way
