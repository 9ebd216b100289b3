#!/usr/bin/env python3
"""Has several archives of this host exchange what is better, each at an address of its own: archives.py PROGRAM FOLDER.

First what one sync prints and does; then three archives that take files of many clients through proxies that lose
datagrams, while syncs run and are killed, and one archive is lost and replaced; then two archives whose histories rsync
carries. The last line counts the checks.
"""
import os
import random
import shutil
import signal
import socket
import struct
import subprocess
import sys
import threading
import time
from concurrent.futures import ThreadPoolExecutor
from pathlib import Path

PROGRAM, FOLDER = os.path.abspath(sys.argv[1]), sys.argv[2]
SEED = int(os.environ.get("SEED", "1"))
HEADERS = {"lynx": bytes.fromhex("35339B9901000000"), "ms": bytes.fromhex("35339B9902000000")}
# The random part: how many files are put, by how many clients at a time; and how many syncs run meanwhile.
PUTS, CLIENTS, SYNCS = 90, 6, 12
# How many files are put while rsync runs.
COPIED = 30

lock = threading.Lock()
counts = {True: 0, False: 0}
processes = []


def check(name, holds):
    with lock:
        counts[bool(holds)] += 1
        if not holds:
            print(f"check failed: {name}", flush=True)


def started(*words, **streams):
    process = subprocess.Popen(list(map(str, words)), stdin=subprocess.DEVNULL, **streams)
    with lock:
        processes.append(process)
    return process


def run(*words):
    """Runs the program: its status, and what it printed."""
    ran = subprocess.run([PROGRAM, *map(str, words)], stdin=subprocess.DEVNULL, capture_output=True, timeout=300)
    return ran.returncode, ran.stdout.decode(), ran.stderr.decode()


def record(number, ticks, moves=b"\x64"):
    body = struct.pack("<H4sBBII", number, b"BDHP", 0, 0, 0, ticks) + moves
    return struct.pack("<I", len(body)) + body


def written(name, data):
    path = os.path.join(FOLDER, name)
    with open(path, "wb") as out:
        out.write(data)
    return path


def read(path):
    with open(path, "rb") as source:
        return source.read()


class Archive:
    """An archive at an address of this host, with a folder and a history."""

    def __init__(self, name, address, port):
        self.name, self.address, self.port = name, address, port
        self.generation = 0
        self.replace()

    def replace(self):
        """It begins anew, with nothing, at the same place."""
        self.generation += 1
        self.folder = os.path.join(FOLDER, f"{self.name}-{self.generation}")
        self.history = os.path.join(self.folder, "sent")
        os.makedirs(self.history)
        self.start()

    def start(self):
        """It starts, at the next port that is free; after that always at the same one."""
        for _ in range(100):
            self.server = started(
                PROGRAM, "serve", "--address", self.address, "--port", self.port, "--dir", self.folder,
                "--history", self.history, stdout=subprocess.PIPE, stderr=subprocess.DEVNULL,
            )
            if self.server.stdout.readline() == b"serving on port %d\n" % self.port:
                return
            self.server.wait()
            if self.generation == 1:
                self.port += 1
            else:
                time.sleep(0.1)
        sys.exit(f"{self.name} does not start")

    def kill(self):
        self.server.send_signal(signal.SIGKILL)
        self.server.wait()

    def collection(self, rules):
        path = os.path.join(FOLDER, f"got-{self.name}-{rules}")
        status, _, errors = run("get", self.address, rules, path, "--port", self.port)
        check(f"get {rules} of {self.name}: {errors}", status == 0)
        return read(path)

    def put(self, path):
        status, _, errors = run("put", self.address, path, "--port", self.port)
        check(f"put {path} at {self.name}: {errors}", status == 0)


def sync(one, other, *options):
    return run("sync", one.address, other.address, "--port", one.port, "--to-port", other.port, *options)


def gives(name, got, status, out, errors=""):
    """The program ended so; of the errors the first line is compared."""
    first = "".join(got[2].splitlines(keepends=True)[:1])
    check(f"{name}: {got}", got[:2] == (status, out) and first == errors)


def best(rules, paths):
    ran = subprocess.run([PROGRAM, "best", rules, *paths], stdin=subprocess.DEVNULL, capture_output=True)
    check(f"best {rules}: {ran.stderr}", ran.returncode == 0)
    return ran.stdout


# ---- one sync

def answering_at(address, lynx, ms):
    """Answers each request to read at a port of this address with the datagram for its ruleset; returns the port."""
    front = socket.socket(socket.AF_INET, socket.SOCK_DGRAM)
    front.bind((address, 0))

    def answer():
        while True:
            request, client = front.recvfrom(2000)
            with socket.socket(socket.AF_INET, socket.SOCK_DGRAM) as end:
                end.bind((address, 0))
                end.sendto(ms if request.startswith(b"\0\1ms.tws\0") else lynx, client)

    threading.Thread(target=answer, daemon=True).start()
    return front.getsockname()[1]


def one_sync():
    near, far = Archive("near", "127.0.0.2", 28700), Archive("far", "127.0.0.3", 28800)
    slow = HEADERS["lynx"] + record(1, 100) + record(2, 50)
    fast = HEADERS["lynx"] + record(1, 90)
    far.put(written("slow.tws", slow))
    near.put(written("fast.tws", fast))
    near.put(written("ms.tws", HEADERS["ms"] + record(3, 70)))
    gives("a sync", sync(near, far), 0, "lynx sent 29 bytes\nms sent 29 bytes\n")
    together = HEADERS["lynx"] + record(1, 90) + record(2, 50)
    check("the better one was brought", far.collection("lynx") == together)
    check("one way", near.collection("lynx") == fast)
    gives("the same again", sync(near, far), 0, "lynx nothing better\nms nothing better\n")
    gives(
        "both ways", sync(near, far, "--both"), 0,
        "lynx nothing better\nlynx back sent 29 bytes\nms nothing better\nms back nothing better\n",
    )
    check("the other way too", near.collection("lynx") == together)
    far.kill()
    gives("an archive that is down", sync(near, far), 4, "", "tws: 127.0.0.3: transfer failed: timed out\n")
    gives("the other one is", sync(far, near), 4, "", "tws: 127.0.0.3: transfer failed: timed out\n")
    far.replace()
    far.put(written("other.tws", HEADERS["lynx"] + record(7, 5) + record(8, 6)))
    kept = far.collection("lynx")
    gives("no level in common", sync(near, far), 1, "", "tws: no level in common\n")
    check("nothing was sent", (far.collection("lynx"), near.collection("lynx")) == (kept, together))
    gives("new to each other", sync(near, far, "--new"), 0, "lynx sent 50 bytes\nms sent 29 bytes\n")
    check("all is there", far.collection("lynx") == together + kept[8:])
    far.kill()
    junk = b"\0\3\0\1no solution file"
    port = answering_at("127.0.0.4", junk, junk)
    junk = run("sync", "127.0.0.4", near.address, "--port", port, "--to-port", near.port)
    gives("what is no archive", junk, 3, "", "tws: 127.0.0.4: unreadable: BadSignature\n")
    port = answering_at("127.0.0.4", b"\0\5\0\1gone\0", b"\0\3\0\1" + HEADERS["ms"] + record(3, 60))
    half = run("sync", "127.0.0.4", near.address, "--port", port, "--to-port", near.port)
    gives("the second ruleset after the first has failed", half, 4, "ms sent 29 bytes\n", "tws: 127.0.0.4: transfer failed: refused 1\n")
    check("the second ruleset was brought", near.collection("ms") == HEADERS["ms"] + record(3, 60))
    near.kill()
    gives("no address", run("sync", "127.0.0.256", "127.0.0.1"), 1, "", "tws: bad address\n")


# ---- three archives

class Files:
    """Files of players, each counted as sent once a put has said so."""

    def __init__(self, draw):
        self.draw = draw
        self.made = 0
        self.sent = {"lynx": [], "ms": []}
        self.failed = []

    def file(self):
        with lock:
            self.made += 1
            rules = self.draw.choice(["lynx", "ms"])
            records = b"".join(
                record(number, self.draw.randrange(100, 10_000), bytes(self.draw.choices(range(0, 256, 4), k=self.draw.randrange(1, 900))))
                for number in sorted(self.draw.sample(range(1, 30), self.draw.randrange(1, 6)))
            )
            return rules, written(f"file-{self.made}.tws", HEADERS[rules] + records)

    def put(self, address, port):
        rules, path = self.file()
        if run("put", address, path, "--port", port)[0] == 0:
            with lock:
                self.sent[rules].append(path)
        else:
            # It may have been taken all the same.
            with lock:
                self.failed.append((rules, path))


def proxy(archive, seed):
    """A proxy before the archive: the process and its port."""
    process = started(sys.executable, "-B", "system_tests/lossy.py", archive.port, seed, archive.address, stdout=subprocess.PIPE)
    return process, int(process.stdout.readline())


def synced(draw, ways):
    """A sync between two archives, each by itself or by its proxy, which is killed at some moment or ends."""
    with lock:
        one, other = draw.sample(range(len(ways)), 2)
        (from_address, from_port), (to_address, to_port) = draw.choice(ways[one]), draw.choice(ways[other])
        patience = draw.choice([draw.uniform(0, 3), 60])
        both = draw.choice([[], ["--both"]])
    process = started(
        PROGRAM, "sync", from_address, to_address, "--port", from_port, "--to-port", to_port, "--new", *both,
        stdout=subprocess.DEVNULL, stderr=subprocess.DEVNULL,
    )
    try:
        return process.wait(patience)
    except subprocess.TimeoutExpired:
        process.kill()
        process.wait()
        return None


def put_and_sync(draw, files, ways, puts, syncs):
    with ThreadPoolExecutor(CLIENTS) as clients, ThreadPoolExecutor(2) as syncing:
        for _ in range(puts):
            with lock:
                place = draw.choice(draw.choice(ways))
            clients.submit(files.put, *place)
        done = [syncing.submit(synced, draw, ways) for _ in range(syncs)]
    return [future.result() for future in done]


def agree(archives):
    """Two rounds round the first one."""
    for _ in range(2):
        for other in archives[1:]:
            status, _, errors = sync(archives[0], other, "--both", "--new")
            check(f"the last syncs: {errors}", status == 0)


def three_archives():
    draw = random.Random(SEED)
    files = Files(draw)
    archives = [Archive(f"three-{k}", f"127.0.0.{k}", 28900 + 30 * k) for k in (2, 3, 4)]
    ways = []
    for k, archive in enumerate(archives):
        ways.append([(archive.address, archive.port), ("127.0.0.1", proxy(archive, SEED + k)[1])])
    statuses = put_and_sync(draw, files, ways, PUTS * 2 // 3, SYNCS * 2 // 3)
    # All that one archive has reaches another; then it is lost for good.
    lost = archives[1]
    for _ in range(5):
        status, _, errors = sync(lost, archives[0], "--new")
        if status == 0:
            break
    check(f"the archive that will be lost: {errors}", status == 0)
    lost.kill()
    shutil.rmtree(lost.folder)
    lost.replace()
    statuses += put_and_sync(draw, files, ways, PUTS // 3, SYNCS // 3)
    for rules, path in files.failed:
        archives[2].put(path)
        files.sent[rules].append(path)
    agree(archives)
    for rules in "lynx", "ms":
        wanted = best(rules, files.sent[rules])
        check(f"{rules} has solutions", len(wanted) > 8)
        for archive in archives:
            check(f"{rules} of {archive.name}", archive.collection(rules) == wanted)
    killed = statuses.count(None)
    print(
        f"three archives: {PUTS} files, {len(files.failed)} of them put again, "
        f"{len(statuses)} syncs, {statuses.count(0)} whole and {killed} killed"
    )
    check("syncs were killed, and syncs were whole", 0 < killed and 0 < statuses.count(0))
    for archive in archives:
        archive.kill()


# ---- rsync

def carried(one, other):
    """rsync carries what is new of a history to another one, as the page for operators has it."""
    ran = subprocess.run(
        ["rsync", "-a", "--ignore-existing", "--exclude=*.new", f"{one.history}/", other.history],
        stdin=subprocess.DEVNULL, capture_output=True,
    )
    # 24: a file vanished, a draft that was renamed.
    check(f"rsync: {ran.stderr}", ran.returncode in (0, 24))


def recorded(archive):
    """The names of the files of a history, from its folder on."""
    return sorted(str(path.relative_to(archive.history)) for path in Path(archive.history).glob("20*/*.tws"))


def two_histories():
    if not shutil.which("rsync"):
        return
    files = Files(random.Random(SEED))
    one, other = Archive("history-1", "127.0.0.2", 29100), Archive("history-2", "127.0.0.3", 29150)
    with ThreadPoolExecutor(CLIENTS) as clients:
        done = [clients.submit(files.put, *files.draw.choice([(one.address, one.port), (other.address, other.port)])) for _ in range(COPIED)]
        while not all(future.done() for future in done):
            carried(one, other)
            carried(other, one)
    check("all were put", not files.failed)
    time.sleep(1)
    carried(one, other)
    carried(other, one)
    for rules in "lynx", "ms":
        wanted = best(rules, files.sent[rules])
        for archive in one, other:
            there = [os.path.join(archive.history, name) for name in recorded(archive) if f"-{rules}" in name]
            check(f"{rules} of the history of {archive.name}", best(rules, there) == wanted)
    names = [recorded(archive) for archive in (one, other)]
    check("both histories have the same files", names[0] == names[1] and names[0])
    print(f"two histories: {COPIED} files put, {len(names[0])} in each history")
    one.kill()
    other.kill()


def main():
    signal.signal(signal.SIGTERM, lambda *_: sys.exit(1))
    try:
        one_sync()
        three_archives()
        two_histories()
    finally:
        for process in processes:
            process.kill()
    print(f"{counts[True]} passed, {counts[False]} failed")
    return 1 if counts[False] else 0


sys.exit(main())
