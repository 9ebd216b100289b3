#!/usr/bin/env python3
"""A proxy for TFTP over UDP that loses datagrams: lossy.py PORT SEED [HOST], for a server at PORT of this host, or
of another of its addresses.

It prints the port at which it takes requests, and at SIGTERM how many datagrams it dropped, repeated, delayed and reordered.
Each is done to a tenth of the datagrams of both directions: a delay is up to 0.2 s, and one that is reordered is held back
until a later one of its direction has passed, or for 1.5 s. Of a block and its ACK at most one datagram is dropped or held
back; docs/DECISIONS.md says why. Each transfer has ports of its own on both sides.
"""
import heapq
import random
import selectors
import signal
import socket
import sys
import time

# The opcodes of packets with a block's number.
BLOCKS = (3, 4)


def opened():
    end = socket.socket(socket.AF_INET, socket.SOCK_DGRAM)
    end.bind(("127.0.0.1", 0))
    end.setblocking(False)
    return end


class Proxy:
    def __init__(self, port, seed, host="127.0.0.1"):
        self.server = (host, port)
        self.draw = random.Random(seed)
        self.selector = selectors.DefaultSelector()
        self.counts = {"passed": 0, "dropped": 0, "repeated": 0, "delayed": 0, "reordered": 0}
        # For each client its socket towards the server; for each client and port of the server the socket towards it.
        self.ups = {}
        self.downs = {}
        # What was lost of each transfer; what a direction holds back; what is to be sent later.
        self.lost = set()
        self.held = {}
        self.later = []
        self.number = 0
        self.front = self.open(self.from_front)

    def open(self, call):
        end = opened()
        self.selector.register(end, selectors.EVENT_READ, call)
        return end

    def from_front(self, data, source):
        if source not in self.ups:
            self.ups[source] = self.open(lambda answer, port: self.from_server(source, answer, port))
        self.take((source, self.server), data, self.ups[source], self.server)

    def from_server(self, client, data, source):
        if source == self.server:
            self.take((client, source), data, self.front, client)
            return
        way = (client, source)
        if way not in self.downs:
            self.downs[way] = self.open(lambda answer, port: self.from_client(way, answer, port))
        self.take(way, data, self.downs[way], client)

    def from_client(self, way, data, source):
        if source == way[0]:
            self.take(way, data, self.ups[way[0]], way[1])

    def put_off(self, seconds, way, data):
        """Notes what is to be sent later: when, a number that no other note has, the way, and the datagram."""
        self.number += 1
        note = [time.monotonic() + seconds, self.number, way, data]
        heapq.heappush(self.later, note)
        return note

    def send(self, way, data):
        end, to = way
        try:
            end.sendto(data, to)
        except OSError:
            # A full queue or a port that is closed is a loss of the network's own.
            pass

    def take(self, transfer, data, end, to):
        """A datagram of a transfer came, and goes on by this socket to this address: what becomes of it is drawn."""
        way = (end, to)
        # More than a tenth each where something may be lost, which makes a tenth of all.
        drawn = self.draw.random()
        part = (transfer, data[2:4] if data[1] in BLOCKS else data)
        if drawn < 0.3 and part not in self.lost and way not in self.held:
            self.lost.add(part)
            if drawn < 0.15:
                self.counts["dropped"] += 1
            else:
                self.counts["reordered"] += 1
                self.held[way] = self.put_off(1.5, way, data)
            return
        if 0.3 <= drawn < 0.4:
            self.counts["delayed"] += 1
            self.put_off(self.draw.uniform(0.01, 0.2), way, data)
            return
        self.counts["passed"] += 1
        self.send(way, data)
        if 0.4 <= drawn < 0.5:
            self.counts["repeated"] += 1
            self.send(way, data)
        self.release(way)

    def release(self, way):
        """Sends what this way holds back, once."""
        note = self.held.pop(way, None)
        if note:
            self.send(way, note[3])
            note[3] = None

    def send_late(self):
        while self.later and self.later[0][0] <= time.monotonic():
            note = heapq.heappop(self.later)
            if self.held.get(note[2]) is note:
                self.release(note[2])
            elif note[3] is not None:
                self.send(note[2], note[3])

    def run(self):
        print(self.front.getsockname()[1], flush=True)
        while True:
            wait = max(0, self.later[0][0] - time.monotonic()) if self.later else None
            for key, _ in self.selector.select(wait):
                try:
                    data, source = key.fileobj.recvfrom(2000)
                except OSError:
                    continue
                key.data(data, source)
            self.send_late()


def main():
    proxy = Proxy(int(sys.argv[1]), int(sys.argv[2]), *sys.argv[3:])

    def end(*_):
        print(" ".join(f"{name} {count}" for name, count in proxy.counts.items()), flush=True)
        sys.exit(0)

    signal.signal(signal.SIGTERM, end)
    proxy.run()


main()
