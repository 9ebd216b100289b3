#!/usr/bin/env python3
"""Replays schedules of the network by `replay_schedule`, and compares what each leaves with what it must leave: lists by hand
with all that they leave written out (RFC 1350 sections 2, 4 and 5), and a thousand lists of up to sixty events, of which the
first is fixed. What those leave is tested against every promise by `broken_promise`, slowly and from the list alone."""
import os
import random
import re
import subprocess
import sys
from concurrent.futures import ProcessPoolExecutor
from dataclasses import dataclass, field
from pathlib import Path

from moves import read_moves

PROGRAM = Path(__file__).resolve().parent.parent / "crates/replay_schedule/out/replay_schedule"

# The lists that are drawn, besides the one that is fixed, and the most events in one.
DRAWN = 999
EVENTS = 60

# The hosts that a datagram can come from: the server's, and the first of the strangers'. Those between are clients'.
SERVER_HOST = 1
STRANGERS = 100


def record(number, ticks, moves=b"", password=b"BDHP"):
    """A solution's record: its size, and then its body."""
    body = number.to_bytes(2, "little") + password + bytes(6) + ticks.to_bytes(4, "little") + moves
    return len(body).to_bytes(4, "little") + body


EMPTY = {"lynx": bytes.fromhex("35339b9901000000"), "ms": bytes.fromhex("35339b9902000000")}
FILES = {
    "EMPTY_LYNX": EMPTY["lynx"],
    "EMPTY_MS": EMPTY["ms"],
    "HUNDRED": EMPTY["lynx"] + record(1, 100),
    "NINETY": EMPTY["lynx"] + record(1, 90),
    # Three blocks, and two.
    "SLOW": EMPTY["lynx"] + record(1, 100, b"\1" * 1200),
    "FAST": EMPTY["lynx"] + record(1, 90, b"\1" * 700),
    # It is no solution file.
    "UNREADABLE": bytes.fromhex("35339b98020000"),
    "WHOLE_BLOCK": b"\7" * 512,
}

# What the words of the lists below mean: an endpoint, or bytes.
WORDS = {
    "SERVER": "1 6969",
    "FIRST": "1 4000",
    "SECOND": "1 4001",
    "THIRD": "1 4002",
    "FOURTH": "1 4003",
    "ALICE": "2 5000",
    "BOB": "3 5000",
    "CAROL": "4 5000",
    "DAVE": "5 5000",
    "NOBODY": "9 5000",
    "STRANGER": "100 7",
    "WRQ": b"\0\2upload.tws\0octet\0",
    "RRQ_LYNX": b"\0\1lynx.tws\0octet\0",
    "RRQ_MS": b"\0\1ms.tws\0octet\0",
    "UNKNOWN_TRANSFER": b"\0\5\0\5unknown transfer\0",
    "BUSY": b"\0\5\0\0server busy\0",
    "NOT_KEPT": b"\0\5\0\0not kept\0",
    "OTHER_MODE": b"\0\5\0\0octet only\0",
    "OTHER_NAME": b"\0\5\0\1no such file\0",
    # A request in mode `OCTET`, with an option after it.
    "WITH_OPTION": b"\0\1ms.tws\0OCTET\0blksize\x001428\0",
    "PEER_ERROR": b"\0\5\0\0\0",
    "MALFORMED_ERROR": b"\0\5\0\0a",
    "LONG_ACK": b"\0\4\0\0\0",
    "CUT_ACK": b"\0\4\0",
    "TOO_MUCH": bytes(517),
    **FILES,
    **{f"ACK_{n}": bytes([0, 4, 0, n]) for n in range(4)},
    # DATA with a block of a file, such as `SLOW_2`.
    **{f"{name}_{n}": bytes([0, 3, 0, n]) + file[512 * (n - 1) : 512 * n] for name, file in FILES.items() for n in (1, 2, 3)},
}


def spelled(text):
    """The text with its words in the grammar of `schedule_text`."""

    def word(found):
        meaning = WORDS[found[0]]
        return meaning if isinstance(meaning, str) else meaning.hex() or "-"

    return re.sub(r"\b[A-Z][A-Z_0-9]+\b", word, text)


def printed(text):
    """What the program prints of a schedule."""
    return subprocess.run([PROGRAM], input=text.encode(), stdout=subprocess.PIPE, check=True).stdout.decode()


# ---- lists by hand: a name, the events, and all that they leave. Both collections are empty where none is named.

NOTHING = "lynx EMPTY_LYNX\nms EMPTY_MS\n"

PUT = """begin put ALICE HUNDRED
deliver 0 4000
deliver 1 0
deliver 2 0
deliver 3 0
"""

PUT_LEFT = """taken ALICE HUNDRED
sent ALICE
opened ALICE 4000 write 0
lynx HUNDRED
ms EMPTY_MS
datagram ALICE SERVER WRQ
datagram FIRST ALICE ACK_0
datagram ALICE FIRST HUNDRED_1
datagram FIRST ALICE ACK_1
"""

SLOW_PUT = """begin put ALICE SLOW
deliver 0 4000
deliver 1 0
deliver 2 0
deliver 3 0
deliver 4 0
deliver 5 0
deliver 6 0
deliver 7 0
"""

SLOW_PUT_SENT = """datagram ALICE SERVER WRQ
datagram FIRST ALICE ACK_0
datagram ALICE FIRST SLOW_1
datagram FIRST ALICE ACK_1
datagram ALICE FIRST SLOW_2
datagram FIRST ALICE ACK_2
datagram ALICE FIRST SLOW_3
datagram FIRST ALICE ACK_3
"""

# The first list: each datagram arrives once, in order.
SLOW_GET = """begin get BOB lynx
deliver 8 4001
deliver 9 0
deliver 10 0
deliver 11 0
deliver 12 0
deliver 13 0
deliver 14 0
"""

BY_HAND = [
    ("no events", "", NOTHING),
    ("a put", PUT, PUT_LEFT),
    (
        "a put and a get of three blocks",
        SLOW_PUT + SLOW_GET,
        """taken ALICE SLOW
sent ALICE
got BOB SLOW
opened ALICE 4000 write 0
opened BOB 4001 lynx 1
lynx SLOW
ms EMPTY_MS
"""
        + SLOW_PUT_SENT
        + """datagram BOB SERVER RRQ_LYNX
datagram SECOND BOB SLOW_1
datagram BOB SECOND ACK_1
datagram SECOND BOB SLOW_2
datagram BOB SECOND ACK_2
datagram SECOND BOB SLOW_3
datagram BOB SECOND ACK_3
""",
    ),
    # One download was asked for before the better file was sent, another one begins meanwhile, and both end after it was taken:
    # they still have the slow one.
    (
        "two gets across a put",
        SLOW_PUT
        + """begin get BOB lynx
begin put CAROL FAST
deliver 8 4001
deliver 9 4002
deliver 10 0
deliver 11 0
begin get DAVE lynx
deliver 13 0
deliver 14 4003
deliver 12 0
deliver 15 0
deliver 17 0
deliver 18 0       # the last block of the better file
deliver 20 0
deliver 16 0
deliver 21 0
deliver 19 0
deliver 23 0
deliver 22 0
deliver 25 0
deliver 26 0
deliver 24 0
deliver 27 0
""",
        """taken ALICE SLOW
taken CAROL FAST
sent ALICE
sent CAROL
got BOB SLOW
got DAVE SLOW
opened ALICE 4000 write 0
opened BOB 4001 lynx 1
opened CAROL 4002 write 1
opened DAVE 4003 lynx 1
lynx FAST
ms EMPTY_MS
"""
        + SLOW_PUT_SENT
        + """datagram BOB SERVER RRQ_LYNX
datagram CAROL SERVER WRQ
datagram SECOND BOB SLOW_1
datagram THIRD CAROL ACK_0
datagram BOB SECOND ACK_1
datagram CAROL THIRD FAST_1
datagram DAVE SERVER RRQ_LYNX
datagram THIRD CAROL ACK_1
datagram FOURTH DAVE SLOW_1
datagram SECOND BOB SLOW_2
datagram CAROL THIRD FAST_2
datagram BOB SECOND ACK_2
datagram THIRD CAROL ACK_2
datagram DAVE FOURTH ACK_1
datagram FOURTH DAVE SLOW_2
datagram SECOND BOB SLOW_3
datagram BOB SECOND ACK_3
datagram DAVE FOURTH ACK_2
datagram FOURTH DAVE SLOW_3
datagram DAVE FOURTH ACK_3
""",
    ),
    # There is a second block, which is empty.
    (
        "a put of one whole block",
        """begin put ALICE WHOLE_BLOCK
deliver 0 4000
deliver 1 0
deliver 2 0
deliver 3 0
deliver 4 0
deliver 5 0
""",
        "taken ALICE WHOLE_BLOCK\nsent ALICE\nopened ALICE 4000 write 0\n"
        + NOTHING
        + """datagram ALICE SERVER WRQ
datagram FIRST ALICE ACK_0
datagram ALICE FIRST WHOLE_BLOCK_1
datagram FIRST ALICE ACK_1
datagram ALICE FIRST WHOLE_BLOCK_2
datagram FIRST ALICE ACK_2
""",
    ),
    # It opens two transfers. The client refuses the second one with ERROR 5, and its file is taken once.
    (
        "a request that arrives twice",
        """begin put ALICE HUNDRED
deliver 0 4000
deliver 0 4001
deliver 1 0
deliver 2 0
deliver 4 0
deliver 3 0
deliver 5 0
""",
        """taken ALICE HUNDRED
sent ALICE
opened ALICE 4000 write 0
opened ALICE 4001 write 0
lynx HUNDRED
ms EMPTY_MS
datagram ALICE SERVER WRQ
datagram FIRST ALICE ACK_0
datagram SECOND ALICE ACK_0
datagram ALICE FIRST HUNDRED_1
datagram ALICE SECOND UNKNOWN_TRANSFER
datagram FIRST ALICE ACK_1
""",
    ),
    # Each copy of the block is acknowledged, and the file is taken once.
    (
        "a last ACK that is late",
        """begin put ALICE HUNDRED
deliver 0 4000
deliver 1 0
deliver 2 0
client-timeout ALICE
deliver 4 0
client-timeout ALICE
deliver 6 0
client-timeout ALICE
deliver 8 0
deliver 9 0
""",
        PUT_LEFT + "datagram ALICE FIRST HUNDRED_1\ndatagram FIRST ALICE ACK_1\n" * 3,
    ),
    # The fifth time-out ends the client, which is silent from then on.
    (
        "a put that is never answered",
        "begin put ALICE HUNDRED\n" + "client-timeout ALICE\n" * 6,
        NOTHING + "datagram ALICE SERVER WRQ\n" * 5,
    ),
    (
        "one file of three clients",
        PUT
        + """begin put BOB HUNDRED
deliver 4 4001
deliver 5 0
deliver 6 0
deliver 7 0
begin put CAROL HUNDRED
deliver 8 4002
deliver 9 0
deliver 10 0
deliver 11 0
""",
        """taken ALICE HUNDRED
taken BOB HUNDRED
taken CAROL HUNDRED
sent ALICE
sent BOB
sent CAROL
opened ALICE 4000 write 0
opened BOB 4001 write 1
opened CAROL 4002 write 2
lynx HUNDRED
ms EMPTY_MS
datagram ALICE SERVER WRQ
datagram FIRST ALICE ACK_0
datagram ALICE FIRST HUNDRED_1
datagram FIRST ALICE ACK_1
datagram BOB SERVER WRQ
datagram SECOND BOB ACK_0
datagram BOB SECOND HUNDRED_1
datagram SECOND BOB ACK_1
datagram CAROL SERVER WRQ
datagram THIRD CAROL ACK_0
datagram CAROL THIRD HUNDRED_1
datagram THIRD CAROL ACK_1
""",
    ),
    (
        "a file that is no solution file",
        PUT.replace("HUNDRED", "UNREADABLE"),
        "taken ALICE UNREADABLE\nsent ALICE\nopened ALICE 4000 write 0\n"
        + NOTHING
        + """datagram ALICE SERVER WRQ
datagram FIRST ALICE ACK_0
datagram ALICE FIRST UNREADABLE_1
datagram FIRST ALICE ACK_1
""",
    ),
    # The first get has the collection as it was when it was opened. The last ACK of the second put is never delivered.
    (
        "a get across a put",
        PUT
        + """begin get BOB lynx
deliver 4 4001
begin put CAROL NINETY
deliver 6 4002
deliver 7 0
deliver 8 0
deliver 5 0
begin get DAVE lynx
deliver 11 4003
deliver 12 0
""",
        """taken ALICE HUNDRED
taken CAROL NINETY
sent ALICE
got BOB HUNDRED
got DAVE NINETY
opened ALICE 4000 write 0
opened BOB 4001 lynx 1
opened CAROL 4002 write 1
opened DAVE 4003 lynx 2
lynx NINETY
ms EMPTY_MS
datagram ALICE SERVER WRQ
datagram FIRST ALICE ACK_0
datagram ALICE FIRST HUNDRED_1
datagram FIRST ALICE ACK_1
datagram BOB SERVER RRQ_LYNX
datagram SECOND BOB HUNDRED_1
datagram CAROL SERVER WRQ
datagram THIRD CAROL ACK_0
datagram CAROL THIRD NINETY_1
datagram THIRD CAROL ACK_1
datagram BOB SECOND ACK_1
datagram DAVE SERVER RRQ_LYNX
datagram FOURTH DAVE NINETY_1
datagram DAVE FOURTH ACK_1
""",
    ),
    (
        "a get of an empty collection",
        "begin get ALICE ms\ndeliver 0 4000\ndeliver 1 0\ndeliver 2 0\n",
        "got ALICE EMPTY_MS\nopened ALICE 4000 ms 0\n"
        + NOTHING
        + "datagram ALICE SERVER RRQ_MS\ndatagram FIRST ALICE EMPTY_MS_1\ndatagram ALICE FIRST ACK_1\n",
    ),
    # Its ACK has no effect at someone else's transfer. Its own transfer is served, and its file counts in the collection.
    (
        "a stranger beside a put",
        """begin put ALICE HUNDRED
deliver 0 4000
stray STRANGER FIRST ACK_1
deliver 2 0
stray STRANGER SERVER WRQ
deliver 4 4001
stray STRANGER SECOND NINETY_1
deliver 6 0
deliver 1 0
deliver 8 0
deliver 9 0
""",
        """taken STRANGER NINETY
taken ALICE HUNDRED
sent ALICE
opened ALICE 4000 write 0
opened STRANGER 4001 write 0
lynx NINETY
ms EMPTY_MS
datagram ALICE SERVER WRQ
datagram FIRST ALICE ACK_0
datagram STRANGER FIRST ACK_1
datagram FIRST STRANGER UNKNOWN_TRANSFER
datagram STRANGER SERVER WRQ
datagram SECOND STRANGER ACK_0
datagram STRANGER SECOND NINETY_1
datagram SECOND STRANGER ACK_1
datagram ALICE FIRST HUNDRED_1
datagram FIRST ALICE ACK_1
""",
    ),
    # A client accepts datagrams only from the server's host.
    (
        "a stranger that answers a client",
        "begin put ALICE HUNDRED\nstray STRANGER ALICE ACK_0\ndeliver 1 0\n",
        NOTHING + "datagram ALICE SERVER WRQ\ndatagram STRANGER ALICE ACK_0\n",
    ),
    # What was taken is fetched after it. A time-out of the port that had a transfer changes nothing.
    (
        "a restart between a put and a get",
        PUT + "restart\nserver-timeout 4000\nbegin get BOB lynx\ndeliver 4 4001\ndeliver 5 0\n",
        """taken ALICE HUNDRED
sent ALICE
got BOB HUNDRED
opened ALICE 4000 write 0
opened BOB 4001 lynx 1
lynx HUNDRED
ms EMPTY_MS
datagram ALICE SERVER WRQ
datagram FIRST ALICE ACK_0
datagram ALICE FIRST HUNDRED_1
datagram FIRST ALICE ACK_1
datagram BOB SERVER RRQ_LYNX
datagram SECOND BOB HUNDRED_1
datagram BOB SECOND ACK_1
""",
    ),
    # The client has not received the last ACK.
    (
        "a restart after a put",
        PUT.replace("deliver 3 0\n", "restart\n"),
        PUT_LEFT.replace("sent ALICE\n", ""),
    ),
    # The client is told that its file was not kept, and the restart finds it: another client fetches it.
    (
        "a keep with an unknown outcome, which is found",
        PUT.replace("deliver 2 0\n", "unknown-keep 2 found\n") + "begin get BOB lynx\ndeliver 4 4001\ndeliver 5 0\n",
        """taken ALICE HUNDRED
recovered ALICE HUNDRED
got BOB HUNDRED
opened ALICE 4000 write 0
opened BOB 4001 lynx 1
lynx HUNDRED
ms EMPTY_MS
datagram ALICE SERVER WRQ
datagram FIRST ALICE ACK_0
datagram ALICE FIRST HUNDRED_1
datagram FIRST ALICE NOT_KEPT
datagram BOB SERVER RRQ_LYNX
datagram SECOND BOB HUNDRED_1
datagram BOB SECOND ACK_1
""",
    ),
    # The restart does not find it. The client that puts it again has it taken.
    (
        "a keep with an unknown outcome, which is lost",
        PUT.replace("deliver 2 0\n", "unknown-keep 2 lost\n")
        + "begin put BOB HUNDRED\ndeliver 4 4001\ndeliver 5 0\ndeliver 6 0\n",
        """taken BOB HUNDRED
opened ALICE 4000 write 0
opened BOB 4001 write 0
lynx HUNDRED
ms EMPTY_MS
datagram ALICE SERVER WRQ
datagram FIRST ALICE ACK_0
datagram ALICE FIRST HUNDRED_1
datagram FIRST ALICE NOT_KEPT
datagram BOB SERVER WRQ
datagram SECOND BOB ACK_0
datagram BOB SECOND HUNDRED_1
datagram SECOND BOB ACK_1
""",
    ),
    # A time-out of a port without a transfer, and a datagram for an endpoint without a client.
    (
        "events that change nothing",
        "server-timeout 4000\nbegin put ALICE HUNDRED\nstray BOB NOBODY RRQ_MS\ndeliver 1 0\nserver-timeout 6969\n",
        NOTHING + "datagram ALICE SERVER WRQ\ndatagram BOB NOBODY RRQ_MS\n",
    ),
    # ---- lists without a run
    ("a delivery before anything was sent", "deliver 0 4000\n", "bad event 0\n"),
    ("a delivery of what was not sent", "begin put ALICE HUNDRED\ndeliver 0 4000\ndeliver 2 0\n", "bad event 2\n"),
    ("a delivery of what was not sent, after a file was taken", PUT.replace("deliver 3", "deliver 4"), "bad event 4\n"),
    ("a spare port with a transfer", "begin put ALICE HUNDRED\ndeliver 0 4000\ndeliver 0 4000\n", "bad event 2\n"),
    ("the request port as a spare one", "begin put ALICE HUNDRED\ndeliver 0 6969\n", "bad event 1\n"),
    ("a keep of what was not sent", "unknown-keep 0 found\n", "bad event 0\n"),
    ("a keep at the request port", "begin put ALICE HUNDRED\nunknown-keep 0 found\n", "bad event 1\n"),
    ("a keep at a client", "begin put ALICE HUNDRED\ndeliver 0 4000\nunknown-keep 1 lost\n", "bad event 2\n"),
    ("a keep of a block that is not the last", SLOW_PUT.replace("deliver 2 0", "unknown-keep 2 found"), "bad event 3\n"),
    (
        "a keep of a file that changes no collection",
        PUT.replace("HUNDRED", "UNREADABLE").replace("deliver 2 0", "unknown-keep 2 lost"),
        "bad event 3\n",
    ),
    ("a client at the request port", "begin get SERVER lynx\n", "bad event 0\n"),
    ("a client at the server's host", "begin get 1 5000 lynx\n", "bad event 0\n"),
    ("a time-out where no client is", "begin put ALICE HUNDRED\nclient-timeout BOB\n", "bad event 1\n"),
    ("two operations of one client", "begin get ALICE lynx\ndeliver 0 4000\nbegin get ALICE ms\n", "port reused 2\n"),
    # The transfer has ended by time-outs, so its port is free; but not for the same client.
    (
        "two transfers of one client at one port",
        "begin put ALICE HUNDRED\ndeliver 0 4000\n" + "server-timeout 4000\n" * 5 + "deliver 0 4000\n",
        "port reused 7\n",
    ),
    ("a transfer at a port from before a restart", PUT + "restart\ndeliver 0 4000\n", "port reused 6\n"),
    ("a stranger where an operation is", "begin put ALICE HUNDRED\nstray ALICE SERVER WRQ\n", "bad event 1\n"),
    ("a stranger at the server's host", "stray FIRST ALICE ACK_0\n", "bad event 0\n"),
    ("an operation where a stranger was", "stray STRANGER SERVER WRQ\nbegin put STRANGER HUNDRED\n", "port reused 1\n"),
]


class Strangers:
    """A list of what strangers send to a server and of its time-outs, with all that it must leave. A transfer that has ended is
    one whose port answers nobody and sends nothing at a time-out."""

    def __init__(self):
        self.events, self.taken, self.opened, self.sent = [], [], [], []
        self.lynx = "EMPTY_LYNX"

    def arrives(self, host, port, content, spare=0):
        """A datagram arrives at a port of the server, by the bytes of a word or by themselves."""
        content = content if isinstance(content, str) else content.hex() or "-"
        self.events += [f"stray {host} 5000 1 {port} {content}", f"deliver {len(self.sent)} {spare}"]
        self.sent.append(f"{host} 5000 1 {port} {content}")

    def answer(self, host, port, content):
        self.sent.append(f"1 {port} {host} 5000 {content}")

    def asks(self, host, content, spare, answer=None):
        """A request without effect, or one that is refused by this answer."""
        self.arrives(host, 6969, content, spare)
        if answer:
            self.answer(host, 6969, answer)

    def opens(self, host, content, port, answer, asked="write"):
        self.arrives(host, 6969, content, port)
        self.opened.append(f"{host} 5000 {port} {asked} {len(self.taken)}")
        self.answer(host, port, answer)

    def gives(self, host, content, port, answer=None, takes=None):
        """A datagram at a transfer, which is answered so, and by which this file is taken."""
        self.arrives(host, port, content)
        if takes:
            self.taken.append(f"{host} 5000 {takes}")
        if answer:
            self.answer(host, port, answer)

    def waits(self, port, host=None, answer=None):
        """The time-out of a port, at which this is sent."""
        self.events.append(f"server-timeout {port}")
        if answer:
            self.answer(host, port, answer)

    def ended(self, host, port):
        self.gives(host, "UNREADABLE_1", port)
        self.gives(199, "ACK_0", port)
        self.waits(port)

    def row(self, name):
        left = [f"taken {it}" for it in self.taken] + [f"opened {it}" for it in self.opened] + [f"lynx {self.lynx}", "ms EMPTY_MS"]
        left += [f"datagram {it}" for it in self.sent]
        return name, "\n".join(self.events) + "\n", "\n".join(left) + "\n"


def requests():
    """Datagrams at the request port."""
    rows = Strangers()
    rows.opens(102, "WITH_OPTION", 4000, "EMPTY_MS_1", "ms")
    rows.gives(102, "ACK_1", 4000)
    rows.ended(102, 4000)
    yield rows.row("a request to read, with an option")
    # The mode is checked before the name. The spare port stays free.
    rows = Strangers()
    rows.asks(102, b"\0\1ms.tws\0netascii\0", 4000, "OTHER_MODE")
    rows.asks(102, b"\0\1MS.TWS\0netascii\0", 4000, "OTHER_MODE")
    rows.asks(102, b"\0\2upload.tws\0mail\0", 4000, "OTHER_MODE")
    rows.asks(102, b"\0\1MS.TWS\0octet\0", 4000, "OTHER_NAME")
    rows.asks(102, b"\0\1\0octet\0", 4000, "OTHER_NAME")
    rows.opens(102, "WRQ", 4000, "ACK_0")
    yield rows.row("requests that are refused")
    rows = Strangers()
    for content in (b"", b"\0\3\0\1", "ACK_0", "PEER_ERROR", b"\0\6\0\0", b"\0\2upload.tws\0octet", "TOO_MUCH"):
        rows.asks(102, content, 4000)
    rows.opens(102, "WRQ", 4000, "ACK_0")
    yield rows.row("datagrams that are no requests")
    # What follows the byte that ends the mode has no effect.
    for count in range(29):
        rows = Strangers()
        if count < 15:
            rows.asks(102, WORDS["WITH_OPTION"][:count], 4000)
        else:
            rows.opens(102, WORDS["WITH_OPTION"][:count], 4000, "EMPTY_MS_1", "ms")
        yield rows.row(f"the first {count} bytes of a request")
    # With 64 transfers a request in another mode or for another file is still refused for that; any other, as busy.
    rows = Strangers()
    for port in range(4001, 4065):
        rows.opens(102, "WRQ", port, "ACK_0")
    rows.asks(103, "WRQ", 4065, "BUSY")
    rows.asks(103, "WITH_OPTION", 4065, "BUSY")
    rows.asks(103, b"\0\1MS.TWS\0octet\0", 4065, "OTHER_NAME")
    rows.asks(103, b"\0\2upload.tws\0mail\0", 4065, "OTHER_MODE")
    rows.gives(102, "PEER_ERROR", 4001)
    rows.opens(103, "WITH_OPTION", 4065, "EMPTY_MS_1", "ms")
    rows.asks(103, "WITH_OPTION", 4066, "BUSY")
    yield rows.row("a busy server")


def transfers():
    """Datagrams at a transfer's port."""
    # Of two transfers for one request the client ends the one that it is not bound to. Through the other its file is taken
    # once, although its last block arrives twice; that one is live until its second time-out.
    rows = Strangers()
    rows.opens(102, "WRQ", 4000, "ACK_0")
    rows.opens(102, "WRQ", 4001, "ACK_0")
    rows.gives(102, "UNKNOWN_TRANSFER", 4001)
    rows.gives(102, "HUNDRED_1", 4000, "ACK_1", "HUNDRED")
    rows.gives(102, "HUNDRED_1", 4000, "ACK_1")
    rows.waits(4000)
    rows.gives(102, "HUNDRED_1", 4000, "ACK_1")
    rows.waits(4000)
    rows.waits(4000)
    rows.ended(102, 4000)
    rows.ended(102, 4001)
    rows.lynx = "HUNDRED"
    yield rows.row("a put by hand, whose request and block arrive twice")
    # A datagram from another source changes nothing: the transfer goes on as if it had not arrived.
    rows = Strangers()
    rows.opens(102, "RRQ_LYNX", 4000, "EMPTY_LYNX_1", "lynx")
    rows.gives(103, "ACK_1", 4000)
    rows.answer(103, 4000, "UNKNOWN_TRANSFER")
    rows.gives(103, "PEER_ERROR", 4000)
    rows.gives(103, "CUT_ACK", 4000)
    rows.waits(4000, 102, "EMPTY_LYNX_1")
    rows.gives(102, "ACK_1", 4000)
    rows.ended(102, 4000)
    yield rows.row("datagrams of another source")
    rows = Strangers()
    rows.opens(102, "WRQ", 4000, "ACK_0")
    for content in ("TOO_MUCH", "MALFORMED_ERROR", "LONG_ACK", "WRQ"):
        rows.gives(102, content, 4000)
    rows.waits(4000, 102, "ACK_0")
    rows.gives(102, "PEER_ERROR", 4000)
    rows.gives(102, "HUNDRED_1", 4000)
    rows.ended(102, 4000)
    yield rows.row("malformed datagrams of the peer")
    # What a download sends is the collection as it was when it began.
    rows = Strangers()
    rows.opens(102, "WRQ", 4000, "ACK_0")
    rows.gives(102, "HUNDRED_1", 4000, "ACK_1", "HUNDRED")
    rows.waits(4000)
    rows.waits(4000)
    for port in range(4101, 4164):
        rows.opens(102, "RRQ_LYNX", port, "HUNDRED_1", "lynx")
    rows.opens(103, "WRQ", 4200, "ACK_0")
    rows.gives(103, "NINETY_1", 4200, "ACK_1", "NINETY")
    for port in range(4101, 4164):
        rows.waits(port, 102, "HUNDRED_1")
    rows.lynx = "NINETY"
    yield rows.row("downloads beside an upload")


def crowd():
    """65 gets, of which the server has room for 64. The client that is refused sends nothing more, also at a time-out."""
    clients = [f"{2 + i} 5000" for i in range(65)]
    events = [f"begin get {it} lynx" for it in clients] + [f"deliver {i} {4001 + i}" for i in range(65)]
    events += ["deliver 129 0", f"client-timeout {clients[64]}"]
    left = [f"opened {it} {4001 + i} lynx 0" for i, it in enumerate(clients[:64])] + NOTHING.splitlines()
    left += [f"datagram {it} SERVER RRQ_LYNX" for it in clients]
    left += [f"datagram 1 {4001 + i} {it} EMPTY_LYNX_1" for i, it in enumerate(clients[:64])]
    left += [f"datagram SERVER {clients[64]} BUSY"]
    return "\n".join(events) + "\n", "\n".join(left) + "\n"


def too_long():
    """Lists with a put of one byte more than a file can have, each with what it leaves."""
    put = f"begin put ALICE {'07' * 33_553_920}\n"
    yield "a put of a file that is too long", put, "bad event 0\n"
    yield "the same where an operation is", "begin put ALICE HUNDRED\n" + put, "bad event 1\n"


def too_long_to_send():
    """Two puts of files whose collection is too long to be sent, and strangers' requests for it and for the other one: what the
    requests are answered, and how many bytes the collection has."""
    size = 17_000_028
    events, sent = [], 0
    for number in (1, 2):
        file = EMPTY["lynx"] + record(number, 100, b"\1" * (size - 28))
        # The request, its ACK, and each block and its ACK, of which the last is not delivered.
        count = 2 + 2 * (size // 512 + 1)
        events += [f"begin put {1 + number} 5000 {file.hex()}"]
        events += [f"deliver {sent + i} {4000 + number}" for i in range(count - 1)]
        sent += count
    for i, name in enumerate(("RRQ_LYNX", "RRQ_MS")):
        events += [f"stray STRANGER SERVER {name}", f"deliver {sent + 2 * i} 4003"]
    left = outcome_of(printed(spelled("".join(event + "\n" for event in events))))
    return [content for _, _, content in left.datagrams[sent + 1 :: 2]], len(left.texts["lynx"]), len(left.taken)


# ---- what a list leaves


@dataclass
class Outcome:
    """Each list in the order in which things happened. An endpoint is its host and port."""

    taken: list = field(default_factory=list)
    recovered: list = field(default_factory=list)
    sent: list = field(default_factory=list)
    got: list = field(default_factory=list)
    opened: list = field(default_factory=list)
    datagrams: list = field(default_factory=list)
    texts: dict = field(default_factory=dict)


def data(digits):
    return b"" if digits == "-" else bytes.fromhex(digits)


def outcome_of(text):
    """What was left, or the number of the event without a run."""
    left = Outcome()
    for line in text.splitlines():
        kind, *words = line.split()
        match kind, words:
            case ("bad" | "port" | "not"), [_, number]:
                return int(number)
            case ("taken" | "recovered"), [host, port, file]:
                getattr(left, kind).append(((int(host), int(port)), data(file)))
            case "sent", [host, port]:
                left.sent.append((int(host), int(port)))
            case "got", [host, port, file]:
                left.got.append(((int(host), int(port)), data(file)))
            case "opened", [host, port, own, asked, taken]:
                left.opened.append(((int(host), int(port)), int(own), asked, int(taken)))
            case "datagram", [*ends, content]:
                a, b, c, d = map(int, ends)
                left.datagrams.append(((a, b), (c, d), data(content)))
            case ("lynx" | "ms"), [file]:
                left.texts[kind] = data(file)
            case _:
                raise ValueError(line)
    return left


def replayed(events):
    return outcome_of(printed("".join(event + "\n" for event in events)))


# ---- the promises of every run


def solutions(file):
    """The ruleset of a solution file and its solutions, each a key and a body; None for other bytes."""
    if file[:4] != b"\x35\x33\x9b\x99" or len(file) < 8 or file[4] not in (1, 2) or len(file) < 8 + file[7]:
        return None
    found, at = [], 8 + file[7]
    while at < len(file):
        size = int.from_bytes(file[at : at + 4], "little")
        body = file[at + 4 : at + 4 + size]
        if at + 4 + size > len(file) or size not in (0, 6) and size < 16:
            return None
        if size >= 16 and body[:6] != bytes(6):
            if read_moves(body[16:])[0] is None:
                return None
            found.append(((int.from_bytes(body[:2], "little"), body[2:6]), body))
        at += 4 + size
    return ("lynx", "ms")[file[4] - 1], found


def collection(ruleset, files):
    """The text of the best solution of each level: the fewest ticks, then the shortest body, then the smallest bytes."""
    best = {}
    for read in map(solutions, files):
        if read and read[0] == ruleset:
            for key, body in read[1]:
                rank = int.from_bytes(body[12:16], "little"), len(body), body
                best[key] = min(rank, best.get(key, rank))
    return EMPTY[ruleset] + b"".join(len(it[2]).to_bytes(4, "little") + it[2] for _, it in sorted(best.items()))


def operations(events):
    """The operation at each client's endpoint: the number of its event, what it is, and of what."""
    found = {}
    for number, event in enumerate(events):
        kind, *words = event.split()
        if kind == "begin":
            what, host, port, of = words
            found[int(host), int(port)] = number, what, of
    return found


def broken_promise(events, left):
    """The promise that what these events leave breaks, if it breaks one."""
    own = operations(events)
    strangers = {tuple(map(int, it.split()[1:3])) for it in events if it.startswith("stray ")}
    peers = [peer for peer, _ in left.taken]

    def is_put_of(end, file):
        return end in own and own[end][1] == "put" and data(own[end][2]) == file and peers.count(end) == 1

    for end, file in left.taken:
        if not (is_put_of(end, file) if end in own else end in strangers):
            return "taken at most once and unchanged"
    for end in left.sent:
        if not any(peer == end and is_put_of(end, file) for peer, file in left.taken):
            return "exactly once if counted as sent"
    told = [to for _, to, content in left.datagrams if content == WORDS["NOT_KEPT"]]
    unknown = [event.split()[2] for event in events if event.startswith("unknown-keep ")]
    if len(told) != len(unknown) or len(left.recovered) != unknown.count("found"):
        return "answered as not kept, and found or lost"
    if any(it not in left.taken or it[0] not in told for it in left.recovered):
        return "taken although the client was told that it was not kept"
    files = [file for _, file in left.taken]
    if any(collection(rules, files) != text for rules, text in left.texts.items()):
        return "best of"
    for end, file in left.got:
        number, what, rules = own[end]
        since = len(replayed(events[:number]).taken)
        openings = [taken for peer, _, asked, taken in left.opened if peer == end and asked == rules and taken >= since]
        if what != "get" or not any(collection(rules, files[:taken]) == file for taken in openings):
            return "a finished get"
    if any(content[:4] == b"\0\5\0\3" for end, _, content in left.datagrams if end not in strangers):
        return "no end out of memory"
    return None


# ---- the drawn lists


class List:
    """A list that is being drawn: six operations at six endpoints, whose datagrams are mostly delivered, and now and then lost,
    repeated or overtaken; time-outs, strangers' datagrams, restarts, and keeps whose outcome is unknown."""

    def __init__(self, seed):
        self.draws = random.Random(seed)
        self.events = []
        self.begun = 0
        self.gone = set()

    def once_in(self, n):
        return self.draws.randrange(n) == 0

    def file(self):
        """A file of one solution, of up to three blocks; but one in twelve is cut, and so is no solution file."""
        moves = b"\1" * self.draws.choice([0, 0, 2, 300, 484, 700, 996, 1200])
        ruleset = "ms" if self.once_in(4) else "lynx"
        whole = EMPTY[ruleset] + record(self.draws.randrange(3), self.draws.randrange(5), moves)
        return whole[:-1] if self.once_in(12) else whole

    def begin(self):
        end = f"{2 + self.begun} 5000"
        self.begun += 1
        if self.once_in(3):
            return f"begin get {end} {'ms' if self.once_in(4) else 'lynx'}"
        return f"begin put {end} {self.file().hex()}"

    def deliver(self, index):
        """Mostly with a spare port that no earlier event has named."""
        self.gone.add(index)
        spare = 4000 + self.draws.randrange(8) if self.once_in(4) else 4100 + len(self.events)
        return f"deliver {index} {spare}"

    def wait(self, left):
        if left.opened and self.once_in(3):
            return f"server-timeout {self.draws.choice(left.opened)[1]}"
        return f"client-timeout {2 + self.draws.randrange(max(self.begun, 1))} 5000"

    def stray(self, left):
        """A stranger's request, what it sends to its own transfer, or to someone else's and its peer."""
        stranger = f"{STRANGERS} {7 + self.draws.randrange(2)}"
        if not left.opened or self.once_in(3):
            return f"stray {stranger} 1 6969 {WORDS['WRQ'].hex()}"
        (host, port), own, _, _ = self.draws.choice(left.opened)
        transfers = [it for it in left.opened if it[0][0] >= STRANGERS]
        if transfers and self.once_in(2):
            (host, port), own, _, _ = self.draws.choice(transfers)
            return f"stray {host} {port} 1 {own} {(bytes([0, 3, 0, 1]) + self.file()[:396]).hex()}"
        to = self.draws.choice([f"1 {own}", f"{host} {port}"])
        return f"stray {stranger} {to} {self.draws.choice(['00040001', '00040000', '00040002', '00030001', '0005000000'])}"

    def disturbance(self, left):
        drawn = self.draws.randrange(20)
        if drawn == 0:
            return "restart"
        if drawn < 5:
            return self.stray(left)
        if drawn < 12 or not left.datagrams:
            return self.wait(left)
        return self.deliver(self.draws.randrange(len(left.datagrams)))

    def next_event(self, left, pending):
        """An event, or None for a datagram that is lost."""
        if self.once_in(5):
            return self.disturbance(left)
        if not pending:
            return self.wait(left)
        index = pending.pop(self.draws.randrange(len(pending)) if self.once_in(4) else 0)
        if self.once_in(12):
            self.gone.add(index)
            return None
        if self.once_in(15):
            return f"unknown-keep {index} {self.draws.choice(['found', 'lost'])}"
        return self.deliver(index)

    def settled(self):
        """What the events leave. An event that has no run is left out."""
        while isinstance(left := replayed(self.events), int):
            del self.events[left]
        return left

    def drawn(self):
        """The events of the whole list, and what they leave."""
        self.events.append(self.begin())
        left = self.settled()
        for _ in range(EVENTS):
            pending = [i for i, (_, to, _) in enumerate(left.datagrams) if i not in self.gone and to[0] < STRANGERS]
            if self.begun < 6 and (len(pending) < 2 or self.once_in(4)):
                self.events.append(self.begin())
            for _ in range(min(max(len(pending), 1), 5)):
                event = self.next_event(left, pending)
                if event and len(self.events) < EVENTS:
                    self.events.append(event)
            left = self.settled()
            if len(self.events) == EVENTS:
                break
        return self.events, left


def tried(seed):
    """The promise that a drawn list breaks, if it breaks one, with the list, and how often each thing happened."""
    events, left = List(seed).drawn()
    happened = {
        "puts": sum(it.startswith("begin put") for it in events),
        "gets": sum(it.startswith("begin get") for it in events),
        "sent": len(left.sent),
        "got": len(left.got),
        "strangers' files": sum(host >= STRANGERS for (host, _), _ in left.taken),
        "restarts": events.count("restart"),
        "found keeps": len(left.recovered),
        "lost keeps": sum(it.startswith("unknown-keep") and it.endswith("lost") for it in events),
        "events": len(events),
    }
    return broken_promise(events, left), events, happened


def by_hand():
    yield from BY_HAND
    yield from requests()
    yield from transfers()
    yield "a get too many", *crowd()
    yield from too_long()


def main():
    passed = failed = 0

    def check(name, holds):
        nonlocal passed, failed
        passed, failed = (passed + 1, failed) if holds else (passed, failed + 1)
        if not holds:
            print(f"failed: {name}")

    for name, events, wanted in by_hand():
        got = printed(spelled(events))
        check(name, got == spelled(wanted))
    refusal = b"\0\5\0\0collection too long\0"
    check("a collection that is too long to be sent", too_long_to_send() == ([refusal, WORDS["EMPTY_MS_1"]], 34_000_048, 2))
    first = spelled(SLOW_PUT + SLOW_GET).splitlines()
    check("the first list keeps every promise", broken_promise(first, replayed(first)) is None)
    total = {}
    with ProcessPoolExecutor(os.cpu_count()) as pool:
        for broken, events, happened in pool.map(tried, range(DRAWN), chunksize=8):
            check("\n".join([f"{broken}, by these events:", *events]), broken is None)
            longest = max(total.get("events", 0), happened["events"])
            total = {name: total.get(name, 0) + count for name, count in happened.items()} | {"events": longest}
    check("the longest list", total["events"] == EVENTS)
    least = {"puts": 2000, "gets": 1000, "sent": total["puts"] // 2, "got": total["gets"] // 2, "strangers' files": 100, "restarts": 100}
    least |= {"found keeps": 50, "lost keeps": 50}
    for name, count in least.items():
        check(f"{total[name]} {name}", total[name] > count)
    print(f"{passed} passed, {failed} failed, 0 skipped")
    return failed != 0


if __name__ == "__main__":
    sys.exit(main())
