"""What the attackers of `hostile.py` share: the program, its servers and ends of their own, floods, and the count of the
checks. The arguments of the process are the program and a folder."""
import os
import shutil
import signal
import socket
import struct
import subprocess
import sys
import threading
import time

PROGRAM, FOLDER = sys.argv[1], sys.argv[2]
HEADER = bytes.fromhex("35339B9901000000")
LAST_PORT = [26000]
counts = {True: 0, False: 0}
# The bounds in seconds that this row has missed.
late = []
processes = []


def check(name, holds):
    counts[bool(holds)] += 1
    if not holds:
        print(f"check failed: {name}", flush=True)


def check_time(name, holds):
    """Checks a bound in seconds."""
    check(name, holds)
    if not holds:
        late.append(name)


def check_done(name, status, said):
    """Checks that a put or a get was done. One that has timed out has missed a bound in seconds."""
    check_one = check_time if b"timed out" in said else check
    check_one(f"{name}: {said}", status == 0)


def tries(row):
    """Runs a row. If it misses nothing but bounds in seconds, an answer that does not come among them, it is run again, twice
    at most, and the last time counts: other work on the machine can make it miss them, and a server that does not keep them
    misses them each time."""
    for left in 2, 1, 0:
        before = dict(counts)
        late.clear()
        try:
            row()
        except TimeoutError as fault:
            check_time(f"{row.__name__}: {fault!r}", False)
        except Exception as fault:
            check(f"{row.__name__}: {fault!r}", False)
        missed = counts[False] - before[False]
        if missed == 0 or missed > len(late) or left == 0:
            return
        print(f"{row.__name__} is tried again", flush=True)
        counts.update(before)


def record(level, password=b"BDHP", ticks=100, moves=b""):
    body = struct.pack("<H4sBBII", level, password, 0, 0, 0, ticks) + moves
    return struct.pack("<I", len(body)) + body


def file(name, *records):
    path = os.path.join(FOLDER, name)
    with open(path, "wb") as out:
        out.write(HEADER + b"".join(records))
    return path


def empty_folder(name):
    path = os.path.join(FOLDER, name)
    shutil.rmtree(path, ignore_errors=True)
    os.mkdir(path)
    return path


def end(host="127.0.0.1", wait=10):
    opened = socket.socket(socket.AF_INET, socket.SOCK_DGRAM)
    opened.setsockopt(socket.SOL_SOCKET, socket.SO_RCVBUF, 1 << 20)
    opened.bind((host, 0))
    opened.settimeout(wait)
    return opened


def request(code, name):
    return struct.pack(">H", code) + name + b"\0octet\0"


WRQ, RRQ = request(2, b"a.tws"), request(1, b"lynx.tws")


def run(*words, **settings):
    process = subprocess.Popen([PROGRAM, *map(str, words)], stdin=subprocess.DEVNULL, stdout=subprocess.PIPE, stderr=subprocess.PIPE, **settings)
    processes.append(process)
    return process


def done(process, seconds=100):
    """Its status and all that it printed, and how long it took from now; status None if it did not end in time."""
    began = time.monotonic()
    try:
        out, errors = process.communicate(timeout=seconds)
        return process.returncode, out + errors, time.monotonic() - began
    except subprocess.TimeoutExpired:
        process.kill()
        return None, b"", time.monotonic() - began


class Server:
    # Most files of the attacks have solutions without moves.
    def __init__(self, *words, takes=("--any-solution",), **settings):
        while True:
            LAST_PORT[0] += 1
            self.port = LAST_PORT[0]
            self.process = run("serve", *takes, "--port", self.port, *words, **settings)
            if self.process.stdout.readline() == b"serving on port %d\n" % self.port:
                return
            self.process.wait()

    def __enter__(self):
        return self

    def __exit__(self, *_):
        self.process.kill()
        self.process.wait()

    def put(self, path):
        return done(run("put", "127.0.0.1", path, "--port", self.port))

    def get(self, name="got"):
        return done(run("get", "127.0.0.1", "lynx", os.path.join(FOLDER, name), "--port", self.port))

    def send(self, own, bytes_to_send):
        own.sendto(bytes_to_send, ("127.0.0.1", self.port))

    def begin(self, own, what, times=1):
        """Sends a request, so many times at most if no answer comes, and returns the first answer and the transfer's port."""
        for left in reversed(range(times)):
            self.send(own, what)
            try:
                answer, (_, port) = own.recvfrom(2000)
                return answer, port
            except TimeoutError:
                if left == 0:
                    raise


def stop(process):
    """Stops a process, and waits until it stands still."""
    process.send_signal(signal.SIGSTOP)
    while True:
        with open(f"/proc/{process.pid}/stat") as status:
            if status.read().rsplit(")", 1)[1].split()[0] == "T":
                return
        time.sleep(0.001)


def drain(own):
    """Reads all that has arrived."""
    wait = own.gettimeout()
    own.settimeout(0)
    try:
        while True:
            own.recv(2000)
    except OSError:
        own.settimeout(wait)


def sockets_of(pid):
    """The UDP ports that a process has open."""
    inodes = set()
    for name in os.listdir(f"/proc/{pid}/fd"):
        try:
            target = os.readlink(f"/proc/{pid}/fd/{name}")
        except OSError:
            continue
        if target.startswith("socket:["):
            inodes.add(target[8:-1])
    with open("/proc/net/udp") as table:
        rows = [line.split() for line in table.readlines()[1:]]
    return {int(row[1].split(":")[1], 16) for row in rows if row[9] in inodes}


class Attack:
    """What a thread does with ends of its own, from when it is entered until it is left. Whoever enters it waits for the first
    so many seconds."""

    def __init__(self, ends, first=0):
        self.ends, self.first = ends, first
        self.over = threading.Event()
        self.thread = threading.Thread(target=self.attack, daemon=True)

    def __enter__(self):
        self.thread.start()
        time.sleep(self.first)
        return self

    def __exit__(self, *_):
        self.over.set()
        self.thread.join()
        for own in self.ends:
            own.close()


class Flood(Attack):
    """Sends junk to a port from several ends, so many datagrams a second."""

    def __init__(self, port, rate, hosts=("127.0.0.2",), ends=50, junk=b"\0\7junk"):
        super().__init__([end(hosts[k % len(hosts)]) for k in range(ends)])
        self.port, self.rate, self.junk = port, rate, junk
        self.sent = 0

    def attack(self):
        began = time.monotonic()
        while not self.over.is_set():
            while self.sent < (time.monotonic() - began) * self.rate:
                try:
                    self.ends[self.sent % len(self.ends)].sendto(self.junk, ("127.0.0.1", self.port))
                except OSError:
                    pass
                self.sent += 1
            time.sleep(0.0005)


def sent_but_for_the_last(server, text):
    """Puts all blocks of a file but the last one, one after another, and leaves the transfer there."""
    own = end()
    port = server.begin(own, WRQ)[1]
    own.connect(("127.0.0.1", port))
    for n in range(1, len(text) // 512 + 1):
        own.send(struct.pack(">HH", 3, n) + text[512 * (n - 1):512 * n])
        own.recv(600)
    return own


def memory_of(pid):
    """The most memory that a process has had, in bytes."""
    with open(f"/proc/{pid}/status") as status:
        return next(int(line.split()[1]) * 1024 for line in status if line.startswith("VmHWM"))


def loaded(path):
    with open(path, "rb") as text:
        return text.read()
