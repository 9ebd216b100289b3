#!/usr/bin/env python3
"""A month of an archive in an hour: month.py [TRANSFERS [SEED]], 200,000 transfers if not given.

Players put files and fetch the collection of a server with a log and a history, over a network that loses datagrams;
strangers attack it in turns; it is stopped, and killed, and starts again. Each ten thousand transfers it prints what the
server holds: memory, descriptors and sockets. No file that was acknowledged may be lost: a collection fetched later has its
levels in its times or better ones, and no time that was never sent. The program is that of this folder, or TWS_PROGRAM.
"""
import os
import random
import resource
import shutil
import signal
import socket
import struct
import subprocess
import sys
import tempfile
import threading
import time

TOP = os.path.dirname(os.path.dirname(os.path.abspath(__file__)))
TRANSFERS = int(sys.argv[1]) if len(sys.argv) > 1 else 200_000
SEED = int(sys.argv[2]) if len(sys.argv) > 2 else 1
HEADER = bytes.fromhex("35339B9901000000")
LEVELS = 149
PLAYERS = 16
LOSS = 0.005
# How many transfers between two lines, two attacks and two starts of the server.
LINE, ATTACK, START = 10_000, 1_000, 20_000


def record(level, ticks, moves):
    body = struct.pack("<H4sBBII", level, b"BDHP", 0, 0, 0, ticks) + moves
    return struct.pack("<I", len(body)) + body


def ticks_by_level(data):
    """The time of each level of a collection."""
    times, at = {}, len(HEADER)
    while at < len(data):
        length = struct.unpack_from("<I", data, at)[0]
        level, = struct.unpack_from("<H", data, at + 4)
        times[level], = struct.unpack_from("<I", data, at + 16)
        at += 4 + length
    return times


class Server:
    def __init__(self, program, folder):
        self.program, self.folder = program, folder
        self.history = os.path.join(folder, "sent")
        os.mkdir(self.history)
        self.port = 20500
        self.start()

    def start(self):
        while True:
            log = open(os.path.join(self.folder, "log"), "ab")
            self.process = subprocess.Popen(
                [self.program, "serve", "--port", str(self.port), "--dir", self.folder, "--log", "--history", self.history],
                stdin=subprocess.DEVNULL, stdout=subprocess.PIPE, stderr=log,
            )
            if self.process.stdout.readline() == b"serving on port %d\n" % self.port:
                return
            self.process.wait()
            self.port += 1

    def again(self, how):
        self.process.send_signal(how)
        self.process.wait()
        self.start()

    def holds(self):
        """Its memory in kB, its descriptors, and its sockets."""
        at = f"/proc/{self.process.pid}"
        with open(f"{at}/status") as status:
            memory = next(int(line.split()[1]) for line in status if line.startswith("VmRSS:"))
        ends = []
        for name in os.listdir(f"{at}/fd"):
            try:
                ends.append(os.readlink(f"{at}/fd/{name}"))
            except OSError:
                pass
        return memory, len(ends), sum(end.startswith("socket:") for end in ends)


class Player:
    """An end of its own for each transfer. A datagram is lost now and then, in each direction."""

    def __init__(self, draw, address, port):
        self.draw = draw
        self.at = (address, port)
        self.end = socket.socket(socket.AF_INET, socket.SOCK_DGRAM)
        self.end.bind((f"127.0.1.{draw.randrange(1, 255)}", 0))
        self.end.settimeout(0.04)

    def __enter__(self):
        return self

    def __exit__(self, *_):
        self.end.close()

    def send(self, datagram, to):
        if self.draw.random() >= LOSS:
            self.end.sendto(datagram, to)

    def exchange(self, datagram, to, wanted):
        """Sends it until the wanted header comes, at most a hundred times; returns the answer, or None."""
        for _ in range(100):
            self.send(datagram, to)
            try:
                while True:
                    answer, source = self.end.recvfrom(600)
                    if self.draw.random() < LOSS:
                        continue
                    if answer[:4] == wanted and (to == self.at or source == to):
                        return answer, source
                    if answer[:2] == b"\0\5":
                        return None
            except OSError:
                pass
        return None

    def put(self, data):
        """Whether the file was acknowledged."""
        answer = self.exchange(b"\0\2file.tws\0octet\0", self.at, b"\0\4\0\0")
        block = 0
        while answer:
            to = answer[1]
            part = data[512 * block:512 * block + 512]
            block += 1
            number = struct.pack(">H", block)
            answer = self.exchange(b"\0\3" + number + part, to, b"\0\4" + number)
            if answer and len(part) < 512:
                return True
        return False

    def get(self):
        """The collection, or None."""
        sent, to, data, block = b"\0\1lynx.tws\0octet\0", self.at, b"", 1
        while True:
            answer = self.exchange(sent, to, b"\0\3" + struct.pack(">H", block))
            if answer is None:
                return None
            part, to = answer[0][4:], answer[1]
            data += part
            sent = b"\0\4" + struct.pack(">H", block)
            if len(part) < 512:
                self.end.sendto(sent, to)
                return data
            block += 1


def note(times, solutions):
    for level, ticks in solutions:
        times[level] = min(ticks, times.get(level, ticks))


class Month:
    def __init__(self, server):
        self.server = server
        self.lock = threading.Lock()
        self.counts = {"put": 0, "got": 0, "put failed": 0, "get failed": 0, "again": 0, "attacks": 0, "starts": 1}
        # The best time of each level over the files that were acknowledged, and over all that were sent.
        self.acknowledged, self.sent = {}, {}
        self.faults = []
        self.left = TRANSFERS
        self.began = time.monotonic()
        # No transfer is under way while the server starts again.
        self.idle = threading.Condition(self.lock)
        self.busy = 0
        self.stopping = False

    def tried(self, transfer):
        """What the transfer returns: it is tried again each half second, for a minute, while it fails."""
        for _ in range(120):
            result = transfer()
            if result:
                return result
            with self.lock:
                self.counts["again"] += 1
            time.sleep(0.5)
        return None

    def put(self, draw, player):
        # One or a few levels of a player's own file, seldom a whole set.
        count = LEVELS if draw.random() < 0.002 else draw.randrange(1, 4)
        solutions = [(level, draw.randrange(1000, 100_000)) for level in sorted(draw.sample(range(1, LEVELS + 1), count))]
        data = HEADER + b"".join(record(level, ticks, b"\x64" * draw.randrange(50, 400)) for level, ticks in solutions)
        with self.lock:
            note(self.sent, solutions)
        is_taken = self.tried(lambda: player.put(data))
        with self.lock:
            self.counts["put" if is_taken else "put failed"] += 1
            if is_taken:
                note(self.acknowledged, solutions)

    def get(self, player):
        with self.lock:
            before = dict(self.acknowledged)
        data = self.tried(player.get)
        with self.lock:
            self.counts["got" if data else "get failed"] += 1
        if data:
            times = ticks_by_level(data)
            lost = [level for level, ticks in before.items() if times.get(level, ticks + 1) > ticks]
            if lost:
                self.faults.append(f"levels {lost} were not in a collection fetched later")

    def plays(self, number):
        draw = random.Random(SEED * 1000 + number)
        while True:
            with self.lock:
                while self.stopping:
                    self.idle.wait()
                if self.left == 0:
                    return
                self.left -= 1
                self.busy += 1
            with Player(draw, "127.0.0.1", self.server.port) as player:
                if draw.random() < 0.6:
                    self.get(player)
                else:
                    self.put(draw, player)
            with self.lock:
                self.busy -= 1
                self.idle.notify_all()

    def attack(self, draw):
        """A short attack of one of several kinds, from an address of its own."""
        with socket.socket(socket.AF_INET, socket.SOCK_DGRAM) as end:
            end.bind((f"127.0.2.{draw.randrange(1, 255)}", 0))
            end.settimeout(0.2)
            at = ("127.0.0.1", self.server.port)
            kind = draw.randrange(4)
            for number in range((2000, 100, 200, 20)[kind]):
                if kind == 0:
                    end.sendto(draw.randbytes(draw.randrange(0, 520)), at)
                elif kind == 1:
                    end.sendto(b"\0\2" + b"x" * draw.randrange(1, 30) + b"\0octet\0", at)
                elif kind == 2:
                    end.sendto(b"\0\1ms.tws\0octet\0", at)
                else:
                    # A made-up file that is no solution file, with its last block at once.
                    end.sendto(b"\0\2junk\0octet\0", at)
                    try:
                        _, to = end.recvfrom(600)
                        end.sendto(b"\0\3\0\1" + draw.randbytes(100), to)
                    except OSError:
                        pass
        self.counts["attacks"] += 1

    def starts_again(self, draw):
        with self.lock:
            self.stopping = True
            while self.busy:
                self.idle.wait()
            self.server.again(draw.choice([signal.SIGTERM, signal.SIGKILL]))
            self.counts["starts"] += 1
            self.stopping = False
            self.idle.notify_all()

    def line(self):
        memory, descriptors, sockets = self.server.holds()
        done = TRANSFERS - self.left
        history = sum(os.stat(os.path.join(at, name)).st_size for at, _, names in os.walk(self.server.history) for name in names)
        seconds = time.monotonic() - self.began
        print(f"{done} transfers, {seconds:.0f} s: {memory} kB, {descriptors} descriptors, {sockets} sockets, history {history} bytes; {self.counts}", flush=True)

    def run(self):
        draw = random.Random(SEED)
        players = [threading.Thread(target=self.plays, args=(number,)) for number in range(PLAYERS)]
        for player in players:
            player.start()
        attacked, started, lined = 0, 0, 0
        while any(player.is_alive() for player in players):
            time.sleep(0.05)
            done = TRANSFERS - self.left
            if done >= attacked + ATTACK:
                attacked = done
                self.attack(draw)
            if done >= lined + LINE:
                lined = done
                self.line()
            if done >= started + START and self.left:
                started = done
                self.starts_again(draw)
        # What the attacks began is over by then.
        time.sleep(30)
        self.line()

    def judge(self):
        with Player(random.Random(SEED), "127.0.0.1", self.server.port) as player:
            times = ticks_by_level(player.get())
        lost = {level for level, ticks in self.acknowledged.items() if times.get(level, ticks + 1) > ticks}
        made_up = {level for level, ticks in times.items() if ticks < self.sent.get(level, ticks + 1)}
        for name, found in ("lost", lost), ("in no file", made_up):
            if found:
                self.faults.append(f"levels {sorted(found)}: {name}")
        for fault in self.faults:
            print(fault)
        print("nothing that was acknowledged is lost" if not self.faults else f"{len(self.faults)} faults")
        return not self.faults


def main():
    resource.setrlimit(resource.RLIMIT_NOFILE, (4096, 4096))
    program = os.environ.get("TWS_PROGRAM", os.path.join(TOP, "crates/tws/out/tws"))
    folder = tempfile.mkdtemp()
    server = Server(program, folder)
    try:
        month = Month(server)
        month.run()
        is_right = month.judge()
    finally:
        server.process.kill()
        shutil.rmtree(folder)
    sys.exit(0 if is_right else 1)


main()
