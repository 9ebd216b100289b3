"""Rows of `hostile.py`: what a client says of a server that a script plays."""
import os

from attacking import FOLDER, HEADER, check, done, end, file, record, run


def said(words, answer, errors):
    """A client of a server that this script plays prints these errors. `answer` gets a function that answers as the server, and
    one that answers from another port, each at the client's port."""
    server, other = end(), end()
    process = run(*words, "--port", server.getsockname()[1])
    _, client = server.recvfrom(2000)
    answer(lambda what: server.sendto(what, client), lambda what: other.sendto(what, client))
    status, text, took = done(process, 20)
    print(f"{words[0]}, status {status} after {took:.1f} s: {text}")
    check(f"what a {words[0]} says", status == 4 and text == errors)


def error(text):
    return b"\0\5\0\0" + text + b"\0"


def put_words():
    return "put", "127.0.0.1", file("said.tws", record(1, moves=b"\0"))


def what_a_server_says():
    """What a server says is shown in printable ASCII alone, and nothing of what another port says."""
    says = b"tws: transfer failed: refused 0\ntws: the server says: "
    said(put_words(), lambda server, other: server(error(b"a\x1b[2J\n\xff~")), says + b"a?[2J??~\n")

    def twice(server, other):
        server(b"\0\4\0\0")
        other(error(b"one"))
        server(error(b"two"))

    said(put_words(), twice, says + b"two\n")


def a_server_that_stops_answering():
    """A put whose request alone is answered, and a get that gets one block. What another port says is not the server's, before
    the server answers and after it."""

    def stops(server, other):
        other(b"\0\4\0\2")
        server(b"\0\4\0\0")
        other(error(b"one"))
        other(b"\0\4\0\2")

    errors = b"tws: transfer failed: timed out\ntws: answers stopped after block 0 of 1: try again\n"
    said(put_words(), stops, errors)

    def stops_later(server, other):
        block = (HEADER + record(1, moves=b"\x61" * 700))[:512]
        other(b"\0\3\0\2" + block)
        server(b"\0\3\0\1" + block)
        other(b"\0\3\0\2" + block)

    errors = b"tws: transfer failed: timed out\ntws: answers stopped after block 1: try again\n"
    said(("get", "127.0.0.1", "lynx", os.path.join(FOLDER, "said.got")), stops_later, errors)
