"""Rows of `hostile.py`: who fills a collection or the disk, and what is kept and served then."""
import os
import resource
import shutil
import signal
import subprocess
import time

from attacking import FOLDER, HEADER, Server, WRQ, check, check_done, check_time, empty_folder, end, file, loaded, record

NOT_KEPT = (4, b"tws: transfer failed: refused 0\ntws: the server says: not kept\n")


def records_of(path):
    """The records of a file, of 1,000 bytes each."""
    text = loaded(path)[len(HEADER):]
    return [text[at:at + 1000] for at in range(0, len(text), 1000)]


def outgrows(name, fitting, more, *words):
    """A put that would make a collection longer than the limit is refused. What was there is served, also after a restart,
    and a put that fits is kept."""
    folder = empty_folder("outgrown")
    first, second, small = file("first.tws", *fitting), file("second.tws", *more), file("small.tws", record(1, b"TINY"))
    kept = loaded(first)

    def served(server, when):
        status, said, took = server.get()
        check_done(f"{name}: a get {when}", status, said)
        check(f"{name}: what is served {when}", status != 0 or loaded(os.path.join(FOLDER, "got")) == kept)
        check_time(f"{name}: the time of a get {when}: {took:.2f} s", took < 20)

    with Server("--dir", folder, *words) as server:
        check(f"{name}: a put that fits", server.put(first)[0] == 0)
        served(server, "before")
        check(f"{name}: what would outgrow it is refused", server.put(second)[:2] == NOT_KEPT)
        served(server, "after")
    check(f"{name}: what is kept", loaded(os.path.join(folder, "lynx.tws")) == kept)
    with Server("--dir", folder, *words) as server:
        served(server, "after a restart")
        check(f"{name}: a small put after that", server.put(small)[0] == 0)
        check(f"{name}: it is kept", len(loaded(os.path.join(folder, "lynx.tws"))) == len(kept) + 20)
    with Server(*words) as server:
        check(f"{name}: a put without a folder", server.put(first)[0] == 0)
        check(f"{name}: it is refused without a folder", server.put(second)[:2] == NOT_KEPT)
        served(server, "without a folder")
    print(f"{name}: an upload that would outgrow it is refused, and {len(kept)} bytes stay served")
    shutil.rmtree(folder)


def no_collection_outgrows_what_can_be_served():
    """Two files of distinct solutions that together have more bytes than the limit, or than can be served at all."""
    few = [[record(level, bytes([letter]) * 4, moves=b"\0") for level in range(1, 6)] for letter in b"AB"]
    outgrows("a limit of 150 bytes", few[0], few[1], "--limit", 150)
    many = [[record(level, bytes([letter]) * 4, moves=b"\0" * 99_980) for level in range(1, 171)] for letter in b"AB"]
    outgrows("the 33,553,919 bytes that can be served", many[0], many[1])


def a_full_disk_loses_nothing():
    """While the disk is full puts are refused, nothing partial is left, and what was there is served. Where no small file
    system can be mounted, a limit on the size of the server's files stands for the disk."""
    folder = empty_folder("full")
    first = file("first.tws", *[record(level, b"AAAA", moves=b"\0" * 980) for level in range(1, 301)])
    second = file("second.tws", *[record(level, b"BBBB", moves=b"\0" * 980) for level in range(1, 201)])
    mounted = subprocess.run(["mount", "-t", "tmpfs", "-o", "size=1m", "tmpfs", folder], stderr=subprocess.DEVNULL).returncode == 0
    filler = os.path.join(folder, "filler")
    size = resource.RLIM_INFINITY, resource.RLIM_INFINITY

    def confined():
        signal.signal(signal.SIGXFSZ, signal.SIG_IGN)
        resource.setrlimit(resource.RLIMIT_FSIZE, (400_000, size[1]))

    def is_kept(text):
        return loaded(os.path.join(folder, "lynx.tws")) == text and sorted(os.listdir(folder)) == ["lynx.tws"]

    try:
        with Server("--dir", folder, **({} if mounted else {"preexec_fn": confined})) as server:
            check("a put while there is room", server.put(first)[0] == 0)
            if mounted:
                with open(filler, "wb") as full:
                    full.write(b"\0" * 600_000)
            check("a put on a full disk", server.put(second)[:2] == NOT_KEPT)
            check("a get on a full disk", server.get()[0] == 0 and loaded(os.path.join(FOLDER, "got")) == loaded(first))
            if mounted:
                os.remove(filler)
            check("nothing partial is left", is_kept(loaded(first)))
            if not mounted:
                resource.prlimit(server.process.pid, resource.RLIMIT_FSIZE, size)
            check("a put once there is room", server.put(second)[0] == 0)
            both = HEADER + b"".join(r for pair in zip(records_of(first), [*records_of(second), *[b""] * 100]) for r in pair)
            check("it is kept", is_kept(both) and server.get()[0] == 0 and loaded(os.path.join(FOLDER, "got")) == both)
        print(f"a full disk{'' if mounted else ', as a limit on the size of files'}: the put is refused, and the next one is kept")
    finally:
        if mounted:
            subprocess.run(["umount", folder])


def puts_for(seconds, server, slower):
    """Puts files of one block, of solutions that take so many ticks and more, without a pause. Returns how many they are."""
    own, until, count = end(), time.monotonic() + seconds, 0
    while time.monotonic() < until:
        port = server.begin(own, WRQ)[1]
        text = HEADER + record(1, ticks=slower + count, moves=b"\0" * 400)
        own.sendto(b"\0\3\0\1" + text, ("127.0.0.1", port))
        own.recv(2000)
        count += 1
    return count


def on_the_disk(folder):
    """How many bytes of the disk the files below a folder take."""
    return sum(512 * os.lstat(os.path.join(at, name)).st_blocks for at, _, names in os.walk(folder) for name in names)


def a_history_has_a_limit():
    """Files that improve nothing come without a pause, to a server whose history may have 1 MB. Once that is counted it grows
    no more, and no collection changes."""
    folder = empty_folder("bounded")
    good = file("good.tws", record(1, moves=b"\0" * 400))
    with Server("--history", folder, "--history-limit", 1_000_000) as server:
        check("a put while the history has room", server.put(good)[0] == 0)
        # A count holds for a second, or longer if it took long.
        seconds, before, size, count = 0, -1, 0, 0
        while size != before and seconds < 30:
            count += puts_for(1, server, 101 + count)
            seconds, before, size = seconds + 1, size, on_the_disk(folder)
        print(f"files without a pause, and a history of at most 1 MB: {size / 1e6:.1f} MB, and no more after {seconds - 1} s")
        check("a history with a limit", size >= 1_000_000 and seconds < 30)
        refused = server.put(file("better.tws", record(1, ticks=1, moves=b"\0")))[:2]
        check("a better file without room in the history", refused == NOT_KEPT)
        check("what is served then", server.get()[0] == 0 and loaded(os.path.join(FOLDER, "got")) == loaded(good))
    shutil.rmtree(folder)


ROWS = no_collection_outgrows_what_can_be_served, a_full_disk_loses_nothing, a_history_has_a_limit
