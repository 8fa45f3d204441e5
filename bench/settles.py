#!/usr/bin/env python3
"""How long drills take, and a settle after one report, in worlds of several sizes.

usage: bench/settles.py PROGRAM [SETTLES]

A world has 50 or 500 Services, each with its first Revision ready: some 300 or 3,000 objects. Each of the 1,000 settles, unless another number is given,
follows a report that changes a Revision. The stream is run with and without these settles: what the first run takes longer is their time. What settles one
behind the other take where nothing changed is told as well. The streams are the same each time.
"""
import contextlib
import io
import subprocess
import sys
import time

from controllers import part, posted, request
from requests import timed_on


def report(service, truth):
    return request("POST", "/control/reports", {"revisionName": f"s{service}-00001", "resourcesAvailable": part(truth), "containerHealthy": part(True)})


SETTLE = request("POST", "/control/settle")


def world(services):
    """Services, settled, with their Revisions ready."""
    return posted(services) + [report(i, True) for i in range(services)] + [SETTLE]


def least(program, made, runs=3):
    """The least time of some runs, in seconds."""
    with contextlib.redirect_stdout(io.StringIO()):
        return min(timed_on([program, "replay"], made)[1] for _ in range(runs))


def drills(program):
    for services in (50, 500):
        took = []
        for _ in range(5):
            begun = time.perf_counter()
            subprocess.run([program, "drill", str(services)], stdout=subprocess.DEVNULL, check=True)
            took.append(time.perf_counter() - begun)
        print(f"drill {services}: {min(took):.3f} s")


def settles(program, services, count):
    reports = [report(i % services, (i // services) % 2 == 1) for i in range(count)]
    made = world(services)
    idle = least(program, made + reports)
    changed = least(program, made + [each for one in reports for each in (one, SETTLE)])
    still = least(program, made + reports + [SETTLE] * (count + 1)) - least(program, made + reports + [SETTLE])
    print(f"{services} Services: a settle after one report takes {(changed - idle) / count * 1e6:.1f} microseconds, one after nothing {still / count * 1e6:.1f}")


def main(program, count=1000):
    drills(program)
    for services in (50, 500):
        settles(program, services, int(count))
    return 0


if __name__ == "__main__":
    sys.exit(main(*sys.argv[1:]))
