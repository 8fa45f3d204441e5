#!/usr/bin/env python3
"""How many automatic steps a second the built program takes.

usage: bench/steps.py PROGRAM [SERVICES [REQUESTS [STEPS]]]

The stream makes 200 Services and settles them, and goes on with 10,000 reports on their Revisions, unless other numbers are given. It is run twice, without
automatic steps and with five behind each request: what the second run takes longer is the time of the steps. The stream is the same each time.
"""
import random
import sys

from controllers import part, posted, request
from requests import timed_on


def report(chance, services):
    """A report on the first Revision of a Service, which is in order four times out of five."""
    name = f"s{chance.randrange(services)}-00001"
    return request("POST", "/control/reports", {"revisionName": name, "resourcesAvailable": part(True), "containerHealthy": part(chance.random() < 0.8)})


def main(program, services=200, count=10000, steps=5):
    services, count, steps = int(services), int(count), int(steps)
    chance = random.Random(13)
    made = posted(services) + [report(chance, services) for _ in range(count)]
    print("without steps: ", end="", flush=True)
    idle_status, idle = timed_on([program, "replay", "--auto", "0"], made)
    print(f"{steps} steps each: ", end="", flush=True)
    status, took = timed_on([program, "replay", "--auto", str(steps)], made)
    taken = steps * len(made)
    spent = took - idle
    if spent > 0:
        print(f"{taken} steps: {spent:.3f} s, {taken / spent:,.0f} a second, {spent / taken * 1e6:.1f} microseconds each")
    else:
        print(f"{taken} steps: too few to be told from the requests")
    return max(idle_status, status)


if __name__ == "__main__":
    sys.exit(main(*sys.argv[1:]))
