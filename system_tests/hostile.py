#!/usr/bin/env python3
"""Attacks servers and clients of this host, and checks the bound that each attack is held to: hostile.py PROGRAM FOLDER.

Each row is a function. It prints what it measured; the last line counts the checks.
"""
import os
import select
import signal
import subprocess
import sys
import time
from concurrent.futures import ThreadPoolExecutor
from functools import partial

import filling
import holding
import pacing
from attacking import (
    FOLDER, Flood, HEADER, RRQ, Server, WRQ, check, check_done, check_time, counts, done, drain, empty_folder, end, file, loaded,
    memory_of, processes, record, request, run, sent_but_for_the_last, sockets_of, stop, tries,
)
from saying import a_server_that_stops_answering, what_a_server_says


# ---- the rows

def what_waits_is_not_timed_out():
    """Twelve last blocks arrive while the server stands still for two seconds: all twelve are acknowledged."""
    with Server() as server:
        ends = [end() for _ in range(12)]
        ports = [server.begin(own, WRQ)[1] for own in ends]
        # By then the server waits for what comes next.
        time.sleep(0.3)
        stop(server.process)
        for own in ends:
            drain(own)
        for k, (own, port) in enumerate(zip(ends, ports)):
            own.sendto(b"\0\3\0\1" + HEADER + record(k + 1), ("127.0.0.1", port))
        time.sleep(2)
        server.process.send_signal(signal.SIGCONT)
        answers = [own.recvfrom(2000)[0] for own in ends]
        acked = sum(answer == b"\0\4\0\1" for answer in answers)
        print(f"a server that stood still for 2 s: {acked} of 12 last blocks acknowledged")
        check("last blocks that waited", acked == 12)


def junk_costs_no_port():
    """20,000 junk datagrams at the request port open no port. A port that a transfer had is not the next one's."""
    with Server() as server:
        own = end()
        first = server.begin(own, WRQ)[1]
        with Flood(server.port, 20_000) as flood:
            while flood.sent < 20_000:
                time.sleep(0.01)
        opened = len(sockets_of(server.process.pid))
        own.sendto(b"\0\5\0\0\0", ("127.0.0.1", first))
        while len(sockets_of(server.process.pid)) > 1:
            time.sleep(0.01)
        second = server.begin(end(), WRQ)[1]
        print(f"20,000 junk datagrams at the request port: ports {first} and {second}, {opened} ports open")
        check("junk opens no port", opened == 2)
        check("a port that was just used", first != second)


def who_may_not_put_costs_no_port():
    """With --put-from requests to write from another host open no port, and a put of the host that was named is taken."""
    with Server("--put-from", "192.0.2.7,127.0.0.2") as server:
        with Flood(server.port, 20_000, hosts=("127.0.0.1",), junk=WRQ) as flood:
            while flood.sent < 20_000:
                time.sleep(0.01)
            opened = len(sockets_of(server.process.pid))
            own, began = end("127.0.0.2", wait=1), time.monotonic()
            # A request that finds no room in the buffer of the port is sent again, as a client does.
            port = server.begin(own, WRQ, times=5)[1]
            own.sendto(b"\0\3\0\1" + HEADER + record(1), ("127.0.0.1", port))
            check("the put of a host that may", own.recv(2000) == b"\0\4\0\1")
            put = time.monotonic() - began
            status, said, got = server.get()
        print(f"20,000 requests a second of a host that may not put: {opened} ports open, another's put {put:.2f} s, a get {got:.2f} s")
        check("the ports of a host that may not put", opened == 1)
        check_done("a get beside it", status, said)
        check_time("puts and gets beside it", put < 1 and got < 1)


def one_host_does_not_close_the_archive():
    """A host that asks for 64 transfers and continues none has 32 of them, and others are served at once."""
    host = holding.own_address()
    if host is None:
        print("requests of one host: not tried, since this host has no other address than 127.x.x.x")
        return
    with Server() as server:
        ends = [end(host) for _ in range(64)]
        for own in ends:
            own.sendto(WRQ, (host, server.port))
        began = time.monotonic()
        while len(sockets_of(server.process.pid)) <= 32 and time.monotonic() - began < 1:
            time.sleep(0.01)
        # Time for those that should not come.
        time.sleep(0.3)
        opened = len(sockets_of(server.process.pid)) - 1
        status, said, took = server.get()
        print(f"64 requests of one host: {opened} transfers; another host's get took {took:.2f} s")
        check("the transfers of one host", opened == 32)
        check_done("another host's get", status, said)
        check_time("the time of another host's get", took < 1)


def strangers_keep_no_transfer_alive():
    """An ACK of a stranger every 0.4 s does not keep a transfer alive whose client is silent."""
    with Server() as server:
        own, stranger = end(), end(wait=0.4)
        port = server.begin(own, RRQ)[1]
        began = time.monotonic()
        lived = 0.0
        while time.monotonic() - began < 8:
            stranger.sendto(b"\0\4\0\1", ("127.0.0.1", port))
            try:
                stranger.recvfrom(2000)
                lived = time.monotonic() - began
                time.sleep(0.4)
            except OSError:
                pass
        print(f"a stranger's ACK every 0.4 s: the transfer lived for {lived:.1f} s")
        check_time("a transfer that a stranger answers", 0 < lived < 7)


def other_hosts_get_no_answer():
    """At a transfer's port another host gets no answer, and the transfer goes on. Another port of the peer's host gets one."""
    with Server() as server:
        own, stranger, neighbour = end(), end("127.0.0.2", 1), end()
        port = server.begin(own, WRQ)[1]
        # More of them than one read drops.
        for _ in range(100):
            stranger.sendto(b"\0\3\0\1" + HEADER, ("127.0.0.1", port))
        neighbour.sendto(b"\0\3\0\1" + HEADER, ("127.0.0.1", port))
        check("another port of the peer's host", neighbour.recv(2000) == b"\0\5\0\5unknown transfer\0")
        own.sendto(b"\0\3\0\1" + HEADER + record(1), ("127.0.0.1", port))
        check("the peer's block after a hundred of another host", own.recv(2000) == b"\0\4\0\1")
        try:
            answer = stranger.recv(2000)
        except TimeoutError:
            answer = None
        print(f"100 datagrams of another host at a transfer's port: {'no answer' if answer is None else answer}")
        check("another host", answer is None)


def junk_is_no_progress(host):
    """A get that nobody answers times out, whatever junk comes from this host."""
    silent = end()
    asked = silent.getsockname()[1]
    process = run("get", "127.0.0.1", "lynx", os.path.join(FOLDER, f"none-{host}"), "--port", asked)
    _, (_, port) = silent.recvfrom(2000)
    with Flood(port, 250, hosts=(host,), ends=5):
        status, text, took = done(process, 20)
    print(f"250 junk datagrams a second from {host}: the get timed out after {took:.1f} s")
    says = b"tws: transfer failed: timed out\ntws: no answer from 127.0.0.1 port %d: " % asked
    check(f"a get with junk from {host}: {text}", status == 4 and text.startswith(says))
    check_time(f"the time of a get with junk from {host}", took < 6)


def five_time_outs_end_a_transfer():
    """The rows that wait for five time-outs, side by side: junk is from the server's host of a get, and from another."""
    rows = [strangers_keep_no_transfer_alive, *(partial(junk_is_no_progress, host) for host in ("127.0.0.1", "127.0.0.2"))]
    rows += a_server_that_stops_answering, pacing.a_silent_peer_gets_the_first_block_twice
    with ThreadPoolExecutor() as pool:
        for row in [pool.submit(row) for row in rows]:
            row.result()


def floods_slow_gets_down_no_more_than_threefold():
    """A collection of 4 MB is fetched while junk floods the port of the client, the server's request port, or both."""
    with Server() as server:
        big = file("big.tws", *[record(level, moves=b"\0" * 1000) for level in range(1, 4001)])
        check("the put of 4 MB", server.put(big)[0] == 0)
        plain = min(server.get()[2] for _ in range(3))

        def flooded(name, port_of):
            times = []
            for _ in range(5):
                process = run("get", "127.0.0.1", "lynx", os.path.join(FOLDER, "got"), "--port", server.port)
                port = port_of(process)
                with Flood(port, 20_000):
                    status, said, took = done(process, 60)
                check_done(f"a get with junk at {name}", status, said)
                times.append(took)
            # A datagram that is lost in a full buffer costs a second, so the middle one of the times.
            middle = sorted(times)[2]
            print(f"4 MB while 20,000 junk datagrams a second come to {name}: {middle:.2f} s, without {plain:.2f} s")
            check_time(f"the time of gets with junk at {name}", middle < 3 * plain + 1)

        def client_port(process):
            while process.poll() is None:
                ports = sockets_of(process.pid)
                if ports:
                    return ports.pop()
            return server.port

        def transfer_port(process):
            for _ in range(1000):
                ports = sockets_of(server.process.pid) - {server.port}
                if ports:
                    return ports.pop()
            return server.port

        flooded("the client's port", client_port)
        flooded("the transfer's port", transfer_port)
        flooded("the request port", lambda process: server.port)


def uploads_cost_their_bytes():
    """Uploads of pads, four bytes a record, take no more memory than the bytes that were received."""
    text = HEADER + b"\0" * (33_553_919 - len(HEADER))
    with Server() as server:
        before = memory_of(server.process.pid)
        ends = [sent_but_for_the_last(server, text) for _ in range(3)]
        taken = memory_of(server.process.pid) - before
        received = sum(len(text) // 512 * 512 for _ in ends)
        print(f"3 uploads of pads: {taken / received:.2f} times the {received / 1e6:.0f} MB received")
        check("the memory of pads", taken < 1.1 * received + 20e6)


def most_records(server):
    """Puts as many solutions as a file can have, and gets them. Returns how many they are."""
    records = [record(level % 65535 + 1, password=b"%04d" % (level // 65535)) for level in range((33_553_919 - len(HEADER)) // 20)]
    check("the put of 1.67 million records", server.put(file("most.tws", *records))[0] == 0)
    check("a first get of them", server.get()[0] == 0)
    return len(records)


def a_put_that_changes_nothing_is_cheap():
    """With a collection of 1.67 million records neither a put that changes nothing nor a refused get costs much."""
    with Server() as server:
        most_records(server)
        block = HEADER + record(1, password=b"0000")
        puts, gets = [], []
        for _ in range(20):
            own = end()
            port = server.begin(own, WRQ)[1]
            began = time.monotonic()
            own.sendto(b"\0\3\0\1" + block, ("127.0.0.1", port))
            own.recvfrom(600)
            puts.append(time.monotonic() - began)
            began = time.monotonic()
            _, port = server.begin(own, RRQ)
            gets.append(time.monotonic() - began)
            own.sendto(b"\0\5\0\0\0", ("127.0.0.1", port))
        puts.sort(), gets.sort()
        print(f"1.67 million records: a put that changes nothing {1000 * puts[10]:.2f} ms, a request to read {1000 * gets[10]:.2f} ms")
        check_time("a put that changes nothing", puts[10] < 0.01)
        check_time("a request to read", gets[10] < 0.01)


def large_collections_are_sent_to_few():
    """Many ask for a collection of 1.67 million records, and follow nothing up. As many get it as may have lists of it; then one
    gives way, and another gets in."""
    with Server("--log") as server:
        count = most_records(server)
        ends = [end(f"127.0.0.{2 + k}") for k in range(40)]
        for own in ends:
            server.send(own, RRQ)
        began, opened = time.monotonic(), 0
        while time.monotonic() - began < 0.8:
            opened = max(opened, len(sockets_of(server.process.pid)) - 1)
        own, began = end("127.0.0.99", wait=1), time.monotonic()
        answer = server.begin(own, RRQ, times=9)[0]
        took = time.monotonic() - began
        server.process.terminate()
        _, said, _ = done(server.process)
        print(f"40 gets of 1.67 million records: {opened} transfers; another's first block came after {took:.2f} s")
        check("no more transfers of a large collection", opened <= 40_000_000 // count)
        check_time("the transfers of a large collection", opened == 40_000_000 // count)
        check("a get beside them", answer[:4] == b"\0\3\0\1")
        check_time("the time of a get beside them", took < 5)
        check("the log of those that were dropped", b"too many transfers of so large a collection" in said)


def gets_write_before_they_dally():
    """A server that repeats its last block for ever: the file is written at once, and the get ends after two seconds."""
    server = end()
    got = os.path.join(empty_folder("repeated"), "got")
    process = run("get", "127.0.0.1", "lynx", got, "--port", server.getsockname()[1])
    _, client = server.recvfrom(2000)
    began = time.monotonic()
    text = HEADER + record(1)
    server.settimeout(0.1)
    written = said = None
    while process.poll() is None and time.monotonic() - began < 20:
        server.sendto(b"\0\3\0\1" + text, client)
        if written is None and os.path.exists(got) and os.path.getsize(got) == len(text):
            written = time.monotonic() - began
        if said is None and select.select([process.stdout], [], [], 0)[0]:
            said = time.monotonic() - began
        try:
            server.recvfrom(2000)
        except OSError:
            pass
        time.sleep(0.1)
    ended = time.monotonic() - began
    print(f"a last block every 0.1 s for ever: written after {written or 99:.1f} s, ended after {ended:.1f} s")
    check_time("the file is written at once", written is not None and written < 0.5)
    check_time("its line is printed at once", said is not None and said < 0.5)
    check("the get ends", process.wait() == 0)
    check_time("it ends in time", ended < 3)
    with Server() as honest:
        status, _, took = honest.get()
        print(f"an ordinary get: {took:.2f} s")
        check("an ordinary get", status == 0)
        check_time("the time of an ordinary get", took < 1)


def puts_stop_reading():
    """A file without end is left once it is known to be none, or is longer than a file may be."""
    status, text, took = done(run("put", "127.0.0.1", "/dev/zero", "--port", 9))
    print(f"put /dev/zero: {took:.2f} s")
    check("a file without end", status == 3 and text.startswith(b"tws: /dev/zero: unreadable: BadSignature\n"))
    check_time("the time of a file without end", took < 1)
    with subprocess.Popen(["cat", file("pads.tws"), "/dev/zero"], stdout=subprocess.PIPE) as pads:
        status, text, took = done(run("put", "127.0.0.1", f"/proc/{os.getpid()}/fd/{pads.stdout.fileno()}", "--port", 9))
        pads.stdout.close()
    print(f"pads without end: {took:.2f} s")
    check("pads without end", status == 4 and text == b"tws: transfer failed: too long\n")
    check_time("the time of pads without end", took < 10)


def as_many_blocks_as_there_are_numbers():
    """A file of 65,534 whole blocks and 511 bytes is taken, and its last ACK is sent again when the block is; no number follows
    it. One of 65,535 whole blocks is refused."""
    with Server() as server:
        for last, wanted in ((b"\7" * 511, b"\0\4\xff\xff"), (b"\7" * 512, b"\0\5\0\3file too long\0")):
            own, began = end(), time.monotonic()
            to = ("127.0.0.1", server.begin(own, WRQ)[1])

            def answer(number, block):
                own.sendto(b"\0\3" + number + block, to)
                return own.recv(2000)

            numbers = [number.to_bytes(2, "big") for number in range(1, 65535)]
            check("65,534 whole blocks", all(answer(number, b"\7" * 512) == b"\0\4" + number for number in numbers))
            check(f"a last block of {len(last)} bytes", answer(b"\xff\xff", last) == wanted)
            print(f"65,534 whole blocks and {len(last)} bytes: {time.monotonic() - began:.1f} s")
            if len(last) < 512:
                check("the last block again", answer(b"\xff\xff", last) == wanted)
                own.settimeout(0.3)
                for number in b"\0\0", b"\0\1":
                    own.sendto(b"\0\3" + number + b"end", to)
                try:
                    check("a block after the last number", own.recv(2000) is None)
                except TimeoutError:
                    check("a block after the last number", True)


def a_dallying_transfer_gives_way():
    """With a place for each of 64 transfers, one that has its file gives way to a request, and no other does."""
    with Server() as server:
        ends = [end() for _ in range(65)]
        _, port = server.begin(ends[0], WRQ)
        ends[0].sendto(b"\0\3\0\1" + HEADER, ("127.0.0.1", port))
        check("the file of the first", ends[0].recv(2000) == b"\0\4\0\1")
        answers = [server.begin(own, WRQ)[0] for own in ends[1:64]]
        # All places are taken now.
        answers.append(server.begin(ends[64], WRQ)[0])
        check("64 more requests", answers == [b"\0\4\0\0"] * 64)
        check("one too many", server.begin(ends[0], WRQ)[0] == b"\0\5\0\0server busy\0")
        print("64 transfers and one that dallies: a request finds its place")


def ports_are_drawn():
    """Who knows a port cannot tell the next one: of twenty ports one order in 20! rises."""
    with Server() as server:
        ports = [server.begin(end(), WRQ)[1] for _ in range(20)]
        print(f"the ports of twenty transfers: {min(ports)} to {max(ports)}")
        check("ports for private use", all(port >= 49152 for port in ports) and len(set(ports)) == 20)
        check("ports in no order", ports != sorted(ports))
    with Server() as server:
        again = [server.begin(end(), WRQ)[1] for _ in range(20)]
        check("another order at the next start", again != ports)


def drafts_that_are_no_files():
    """A draft that is a FIFO, or a link to another file, is removed at the start and replaced by a keep, and nothing is written
    through it."""
    other = os.path.join(FOLDER, "other")
    with open(other, "wb") as out:
        out.write(b"other")
    for k, make in enumerate((os.mkfifo, lambda path: os.symlink(other, path))):
        folder = empty_folder(f"drafts{k}")
        draft = os.path.join(folder, "lynx.new")
        make(draft)
        with Server("--dir", folder) as server:
            check("a draft that was left", not os.path.lexists(draft))
            make(draft)
            path = file("one.tws", record(1))
            status, _, took = server.put(path)
            with open(os.path.join(folder, "lynx.tws"), "rb") as kept, open(path, "rb") as sent:
                same = kept.read() == sent.read()
            print(f"a draft that is {'a link' if k else 'a FIFO'}: the put took {took:.2f} s")
            check("a draft that is no file", status == 0 and same)
            check_time("the time of its put", took < 5)
    with open(other, "rb") as left:
        check("nothing is written through a link", left.read() == b"other")


def no_solution_stops_tile_world():
    """A put that would add a solution without moves or of level 0 is refused, though it is better; what was there is served."""
    good = file("good.tws", record(1, moves=b"\0"))
    with Server(takes=()) as server:
        check("a solution with moves", server.put(good)[0] == 0)
        for name, level, bad in (("no moves", b"1 BDHP", record(1, ticks=1)), ("level 0", b"0 x00414243", record(0, b"\0ABC", moves=b"\0"))):
            told = server.put(file("bad.tws", bad, record(2, moves=b"\0")))[:2]
            stops = b"tws: level " + level + b" stops Tile World: an archive may refuse the file\n"
            check(f"a solution of {name}: {told}", told == (4, stops + b"tws: transfer failed: refused 0\ntws: the server says: not kept\n"))
            check(f"what is served after {name}", server.get()[0] == 0 and loaded(os.path.join(FOLDER, "got")) == loaded(good))
        print("solutions without moves and of level 0: the put is refused")


def main():
    rows = [
        what_waits_is_not_timed_out,
        junk_costs_no_port,
        who_may_not_put_costs_no_port,
        one_host_does_not_close_the_archive,
        *holding.ROWS,
        *pacing.ROWS,
        other_hosts_get_no_answer,
        what_a_server_says,
        five_time_outs_end_a_transfer,
        floods_slow_gets_down_no_more_than_threefold,
        uploads_cost_their_bytes,
        a_put_that_changes_nothing_is_cheap,
        large_collections_are_sent_to_few,
        gets_write_before_they_dally,
        puts_stop_reading,
        drafts_that_are_no_files,
        as_many_blocks_as_there_are_numbers,
        a_dallying_transfer_gives_way,
        ports_are_drawn,
        no_solution_stops_tile_world,
        *filling.ROWS,
    ]
    try:
        for row in rows:
            tries(row)
    finally:
        for process in processes:
            if process.poll() is None:
                process.kill()
    print(f"{counts[True]} passed, {counts[False]} failed")
    return counts[False] != 0


sys.exit(main())
