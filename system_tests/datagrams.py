#!/usr/bin/env python3
"""Sends datagrams to a server on this host and prints the answer to each, then closes the transfer with an ERROR.

    datagrams.py PORT DATAGRAM..     the first goes to PORT, each further one to the port that the last answer came from

In a DATAGRAM `\\xHH` is a byte, `@FILE` is DATA 1 with the first 512 bytes of a file, and `stranger:` at its start sends it
from another socket. An answer is printed as the port that it came from, `request` or `transfer`, and its bytes; `nothing`
means that none came within ten seconds.
"""
import codecs
import socket
import sys


def datagram(text):
    if text.startswith("@"):
        with open(text[1:], "rb") as file:
            return b"\0\3\0\1" + file.read(512)
    return codecs.escape_decode(text.encode("latin-1"))[0]


def opened():
    end = socket.socket(socket.AF_INET, socket.SOCK_DGRAM)
    end.bind(("127.0.0.1", 0))
    end.settimeout(10)
    return end


def main():
    port = int(sys.argv[1])
    own, stranger = opened(), opened()
    to = port
    for text in sys.argv[2:]:
        end = own
        if text.startswith("stranger:"):
            end, text = stranger, text[len("stranger:"):]
        end.sendto(datagram(text), ("127.0.0.1", to))
        try:
            answer, (_, to) = end.recvfrom(2000)
        except TimeoutError:
            print("nothing")
            continue
        # A byte that is not a printable character is written as \xHH.
        text = "".join(chr(b) if 32 <= b < 127 and b != 92 else f"\\x{b:02x}" for b in answer)
        print("request" if to == port else "transfer", text)
    if to != port:
        own.sendto(b"\0\5\0\0done\0", ("127.0.0.1", to))


main()
