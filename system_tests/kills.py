#!/usr/bin/env python3
"""Kills ten servers at random moments during puts, and checks what each has after its restart: kills.py PROGRAM FOLDER.

A put that was counted as sent must be in the collection then; the one that was running may be in it, whole, or not. On a
busy disk a keep may take longer than all time-outs of a client, which then gives up: whether its file was taken is open too,
but more than a few such puts are a failure. The last line counts the checks.
"""
import os
import random
import signal
import struct
import subprocess
import sys
import threading
import time

PROGRAM, FOLDER = sys.argv[1], sys.argv[2]
SERVERS = 10
# How many kills of each server are to meet a put, and how many there are at most.
KILLS = 5
MOST = 30
# The puts before each moment is drawn, and how late the moment is at most, in seconds from the start of the next put.
BEFORE = 2
LATEST = 0.06
# How long a client whose server was killed may take to receive what is already sent.
GRACE = 0.3
# How often a file is put whose client gives up, what such a client prints, and how many of them there are at most: a disk
# that stops for a while holds back one put of each server.
TRIES = 3
GIVES_UP = b"tws: transfer failed: timed out\n"
MOST_GIVE_UP = 2 * SERVERS

lock = threading.Lock()
counts = {True: 0, False: 0}
processes = []


def check(name, holds):
    with lock:
        counts[bool(holds)] += 1
        if not holds:
            print(f"check failed: {name}", flush=True)


def run(*words, out=subprocess.PIPE, errors=subprocess.DEVNULL):
    process = subprocess.Popen([PROGRAM, *map(str, words)], stdin=subprocess.DEVNULL, stdout=out, stderr=errors)
    with lock:
        processes.append(process)
    return process


class Archive:
    def __init__(self, k):
        self.draw = random.Random(k)
        self.name = f"server {k}"
        self.port = 25000 + 200 * k
        self.folder = os.path.join(FOLDER, str(k))
        self.kept = os.path.join(self.folder, "kept")
        os.makedirs(self.kept)
        self.made = 0
        # How many kills have met a put, and how many clients gave up.
        self.met = 0
        self.gave_up = 0
        # The files of which the collection is the best.
        self.taken = []

    def path(self, name):
        return os.path.join(self.folder, name)

    def file(self):
        """A file of one level, in fewer ticks than any before it."""
        self.made += 1
        moves = bytes(self.draw.choices(range(0, 256, 4), k=self.draw.randrange(30_000)))
        body = struct.pack("<H4sBBII", self.draw.randrange(1, 8), b"BDHP", 0, 0, 0, 10_000 - self.made) + moves
        path = self.path(f"{self.made}.tws")
        with open(path, "wb") as out:
            out.write(bytes.fromhex("35339B9901000000") + struct.pack("<I", len(body)) + body)
        return path

    def start(self):
        """Starts the server, on the next port that is free."""
        for _ in range(100):
            self.port += 1
            self.server = run("serve", "--any-solution", "--port", self.port, "--dir", self.kept)
            if self.server.stdout.readline() == b"serving on port %d\n" % self.port:
                return
            self.server.wait()
        sys.exit(f"{self.name} does not start")

    def put(self, path):
        """Puts a file: the client's status, and what it printed as an error."""
        self.client = run("put", "127.0.0.1", path, "--port", self.port, out=subprocess.DEVNULL, errors=subprocess.PIPE)
        _, errors = self.client.communicate()
        self.gave_up += errors.startswith(GIVES_UP)
        return self.client.returncode, errors

    def send(self, path):
        """Puts a file until it counts as sent."""
        for _ in range(TRIES):
            status, errors = self.put(path)
            if not errors.startswith(GIVES_UP):
                break
        check(f"{self.name}: put, status {status}, {errors}", status == 0)
        self.taken.append(path)

    def best(self, files):
        return subprocess.run([PROGRAM, "best", "lynx", *files], stdout=subprocess.PIPE, check=True).stdout

    def get(self):
        path = self.path("got")
        status = run("get", "127.0.0.1", "lynx", path, "--port", self.port, out=subprocess.DEVNULL).wait()
        check(f"{self.name}: get, status {status}", status == 0)
        with open(path, "rb") as got:
            return got.read()

    def kill(self, moment):
        """Kills the server after this time, and soon after that the client that runs."""
        time.sleep(moment)
        self.server.kill()
        self.server.wait()
        self.killed.set()
        time.sleep(GRACE)
        self.client.kill()

    def puts_until_killed(self):
        """Puts one file after another until the server is killed: the last, if it was not counted as sent."""
        self.killed = threading.Event()
        path = self.file()
        killer = threading.Thread(target=self.kill, args=(self.draw.uniform(0, LATEST),), daemon=True)
        killer.start()
        running, status, errors = None, 0, b""
        while not running and not self.killed.is_set():
            status, errors = self.put(path)
            if status == 0:
                self.taken.append(path)
                path = self.file()
            else:
                running = path
        killer.join()
        # A put is sent, or its client was killed after the server was, or gave up since the server hung in a keep.
        check(f"{self.name}: the last put, status {status}, {errors}", status in (0, -signal.SIGKILL) or errors.startswith(GIVES_UP))
        return running

    def round(self):
        for _ in range(BEFORE):
            self.send(self.file())
        running = self.puts_until_killed()
        self.start()
        got = self.get()
        is_after = running and got == self.best(self.taken + [running])
        if is_after:
            self.taken.append(running)
        check(f"{self.name}: after {self.made} files it has what was sent", is_after or got == self.best(self.taken))
        with open(os.path.join(self.kept, "lynx.tws"), "rb") as kept:
            check(f"{self.name}: after {self.made} files it has what is kept", got == kept.read())
        self.met += running is not None

    def live(self):
        try:
            self.start()
            for _ in range(MOST):
                if self.met == KILLS:
                    break
                self.round()
        except BaseException as e:
            check(f"{self.name}: {e!r}", False)
            raise
        self.server.terminate()


def end():
    with lock:
        for process in processes:
            if process.returncode is None:
                process.kill()


def main():
    signal.signal(signal.SIGTERM, lambda *_: sys.exit(1))
    try:
        archives = [Archive(k) for k in range(SERVERS)]
        lives = [threading.Thread(target=archive.live, daemon=True) for archive in archives]
        for life in lives:
            life.start()
        for life in lives:
            life.join()
    finally:
        end()
    met = sum(archive.met for archive in archives)
    check(f"{met} kills met a put", met == SERVERS * KILLS)
    gave_up = sum(archive.gave_up for archive in archives)
    check(f"{gave_up} puts timed out", gave_up <= MOST_GIVE_UP)
    print(f"{counts[True]} passed, {counts[False]} failed")
    sys.exit(counts[False] > 0)


main()
