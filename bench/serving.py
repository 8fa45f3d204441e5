#!/usr/bin/env python3
"""How many gets and puts a second one connection to a served plane makes, and, for scale, gets of as many bytes from Python's own HTTP server.

usage: bench/serving.py PROGRAM

The client is a plain loop over a socket: a request goes out when the reply before it has come. So it measures the way there and back, and the client too.
"""
import http.server
import json
import os
import socket
import sys
import threading
import time

sys.path.insert(0, os.path.join(os.path.dirname(os.path.abspath(__file__)), "..", "tests", "clients"))
from server import ROOT, manifest, serving  # noqa: E402

SECONDS = 3


def request(method, path, body=None):
    data = b"" if body is None else json.dumps(body, separators=(",", ":")).encode()
    return f"{method} {path} HTTP/1.1\r\nHost: x\r\nContent-Length: {len(data)}\r\n\r\n".encode() + data


def call(peer, data):
    peer.sendall(data)
    found = peer.recv(65536)
    head, body = found.split(b"\r\n\r\n", 1)
    length = int(head.lower().split(b"content-length: ")[1].split(b"\r\n")[0])
    while len(body) < length:
        body += peer.recv(65536)
    return head, body


def rate(peer, requests):
    """Calls a second, with the requests in turn."""
    count, start = 0, time.perf_counter()
    while (spent := time.perf_counter() - start) < SECONDS:
        for _ in range(100):
            head, _ = call(peer, next(requests))
            assert head.startswith(b"HTTP/1.1 200"), head
            count += 1
    return count / spent


def always(data):
    while True:
        yield data


def puts(version):
    while True:
        body = manifest("Configuration", "c")
        body["metadata"] |= {"resourceVersion": str(version), "labels": {"n": str(version)}}
        yield request("PUT", f"{ROOT}/configurations/c", body)
        version += 1


class Plain(http.server.BaseHTTPRequestHandler):
    protocol_version = "HTTP/1.1"
    # Head and body go out in one piece, so that no delayed acknowledgement is waited for.
    wbufsize = 65536
    body = b""

    def do_GET(self):
        self.send_response(200)
        self.send_header("Content-Type", "application/json")
        self.send_header("Content-Length", str(len(self.body)))
        self.end_headers()
        self.wfile.write(self.body)
        self.wfile.flush()

    def log_message(self, *args):
        pass


def main(program):
    with serving(program, "--auto", "0") as server:
        peer = server.connect()
        call(peer, request("POST", f"{ROOT}/configurations", manifest("Configuration", "c")))
        get = request("GET", f"{ROOT}/configurations/c")
        Plain.body = call(peer, get)[1]
        print(f"gets: {rate(peer, always(get)):,.0f} a second, of {len(Plain.body)} bytes")
        print(f"puts: {rate(peer, puts(1)):,.0f} a second")
    plain = http.server.HTTPServer(("127.0.0.1", 0), Plain)
    threading.Thread(target=plain.serve_forever, daemon=True).start()
    peer = socket.create_connection(plain.server_address)
    print(f"gets of as many bytes from Python's own server: {rate(peer, always(get)):,.0f} a second")


if __name__ == "__main__":
    main(sys.argv[1])
