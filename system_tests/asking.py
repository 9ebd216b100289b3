#!/usr/bin/env python3
"""Asks a server of this host for two transfers from an address of its own, and continues none: asking.py PORT.

Prints the address and port of the second request, or nothing where this host has no address but 127.x.x.x.
"""
import socket
import sys


def own_address():
    """The address that this host sends from to others."""
    with socket.socket(socket.AF_INET, socket.SOCK_DGRAM) as probe:
        try:
            probe.connect(("192.0.2.1", 9))
            return probe.getsockname()[0]
        except OSError:
            return "127.0.0.1"


def main():
    host = own_address()
    if host.startswith("127."):
        return
    server = host, int(sys.argv[1])
    for answered in True, False:
        with socket.socket(socket.AF_INET, socket.SOCK_DGRAM) as end:
            end.bind((host, 0))
            end.settimeout(10)
            end.sendto(b"\0\2upload.tws\0octet\0", server)
            if answered:
                end.recvfrom(2000)
            else:
                print("%s:%d" % end.getsockname())


main()
