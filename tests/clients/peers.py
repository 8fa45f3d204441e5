#!/usr/bin/env python3
"""Peers that behave badly, or oddly: the server refuses or answers each, tells of it by its line, and serves the next one.

usage: tests/clients/peers.py PROGRAM
"""
import socket
import struct
import sys
import time

from server import Checks, serving

GET = b"GET /control/summary HTTP/1.1\r\nHost: x\r\n\r\n"
CLOSING = b"GET /control/summary HTTP/1.1\r\nConnection: close\r\n\r\n"


def all_of(peer):
    """What the server sends to its end."""
    found = b""
    while piece := peer.recv(65536):
        found += piece
    return found


def main(program):
    checks = Checks("peers")
    lines = []

    def told(line):
        lines.append(f"connection {len(lines) + 1}: {line}")

    with serving(program, "--auto", "0", "--sessions", "208") as server:
        with server.connect() as peer:
            peer.sendall(b"GET / HT")
        told("cut, 0 answered")
        with server.connect() as peer:
            peer.sendall(b"POST /x HTTP/1.1\r\nContent-Length: 9\r\n\r\nhalf")
        told("cut, 0 answered")
        with server.connect() as peer:
            peer.sendall(b"hello\r\n\r\n")
            checks.equal(b"400 Bad Request" in all_of(peer), True, "a bad head is refused")
        told("bad, 0 answered")
        with server.connect() as peer:
            # A byte, and another one a second later, for three seconds; and then the rest.
            for place in range(3):
                peer.sendall(CLOSING[place:place + 1])
                time.sleep(1)
            peer.sendall(CLOSING[3:])
            checks.equal(b"200 OK" in all_of(peer), True, "a slow peer is answered")
        told("closed, 1 answered")
        with server.connect() as peer:
            peer.sendall(b"POST /x HTTP/1.1\r\nContent-Length: 900000\r\n\r\n" + b"x" * 900_000)
            checks.equal(b"413 Payload Too Large" in all_of(peer), True, "a body over the limit that is sent whole gets its refusal")
        told("bad, 0 answered")
        with server.connect() as peer:
            peer.sendall(GET * 100)
            peer.shutdown(socket.SHUT_WR)
            checks.equal(all_of(peer).count(b"HTTP/1.1 200 OK"), 100, "a batch of 100 requests")
        told("clean, 100 answered")
        with server.connect() as peer:
            peer.sendall(CLOSING + b"x" * 100_000)
            checks.equal(b"200 OK" in all_of(peer), True, "what stands behind a request that closes isn't looked at")
        told("closed, 1 answered")
        for _ in range(200):
            with server.connect() as peer:
                peer.sendall(CLOSING)
                all_of(peer)
            told("closed, 1 answered")
        peer = server.connect()
        peer.setsockopt(socket.SOL_SOCKET, socket.SO_LINGER, struct.pack("ii", 1, 0))
        peer.sendall(GET * 2000)
        peer.close()
        status, found = server.ended()
        checks.equal((status, found[:-1]), (0, lines), "the lines")
        checks.equal(found[-1].split(":")[0], "connection 208", "a peer that goes before it reads has its line")
    return checks.end()


if __name__ == "__main__":
    sys.exit(main(sys.argv[1]))
