#!/usr/bin/env python3
"""Prints how much processor time of the built program one call of each sort takes.

Each sort has a stream of its own: the objects are made, and then the call is made many times. What the making alone takes, in a stream of its own, is
subtracted. The time is that of user and system together, and the least of five runs.

usage: bench/calls.py PROGRAM

The sorts are a GET of one Service, as it was made and after a settle, lists of 200 and of 2,000 Services, a poll of 20 events, a PUT, a PATCH, a POST,
and a GET of what isn't there. The streams are the same each time.
"""
import os
import subprocess
import sys
import tempfile

from requests import manifest, request

RUNS = 5
SETTLE = b"POST /control/settle HTTP/1.1\r\nHost: bench\r\nContent-Length: 0\r\n\r\n"


def posted(first, count):
    return [request("POST", "services", manifest("Service", f"s{i}", "img-0")) for i in range(first, first + count)]


def replaced(count):
    """PUTs of one Service of 200, each with the version that stands."""
    versions = [1] + [200 + i for i in range(1, count)]
    return [request("PUT", "services/s0", manifest("Service", "s0", f"img-{at}", at)) for at in versions]


def patched(count):
    return [request("PATCH", "services/s0", {"metadata": {"labels": {"image": f"img-{i}"}}}) for i in range(1, count + 1)]


def sorts():
    """The name of each sort, what is made before, and the calls."""
    made = posted(0, 200)
    yield "GET", made, [request("GET", f"services/s{i % 200}") for i in range(20000)]
    yield "GET, settled", made + [SETTLE], [request("GET", f"services/s{i % 200}") for i in range(20000)]
    yield "list of 200", made, [request("GET", "services")] * 500
    yield "list of 2,000", posted(0, 2000), [request("GET", "services")] * 50
    yield "poll of 20 events", made, [request("GET", "services?watch=1&resourceVersion=180")] * 4000
    yield "PUT", made, replaced(5000)
    yield "PATCH", made, patched(5000)
    yield "POST", made, posted(200, 5000)
    yield "404", made, [request("GET", "services/none")] * 20000


def processor_time(program, made):
    """The least processor time of a run over the requests, in seconds, and the replies."""
    with tempfile.TemporaryFile() as stream, tempfile.TemporaryFile() as replies:
        stream.writelines(made)
        times = []
        for _ in range(RUNS):
            stream.seek(0)
            replies.seek(0)
            run = subprocess.Popen([program, "replay"], stdin=stream, stdout=replies)
            _, status, used = os.wait4(run.pid, 0)
            run.returncode = os.waitstatus_to_exitcode(status)
            if run.returncode != 0:
                sys.exit(f"{program} ended with {run.returncode}")
            times.append(used.ru_utime + used.ru_stime)
        replies.seek(0)
        return min(times), replies.read()


def main(program):
    for name, before, calls in sorts():
        start, _ = processor_time(program, before)
        whole, replies = processor_time(program, before + calls)
        refused = replies.count(b'"status":"Failure"')
        if refused != (len(calls) if name == "404" else 0):
            sys.exit(f"{name}: {refused} of {len(calls)} calls were refused")
        print(f"{name:18} {(whole - start) / len(calls) * 1e6:9.1f} microseconds", flush=True)
    return 0


if __name__ == "__main__":
    sys.exit(main(*sys.argv[1:]))
