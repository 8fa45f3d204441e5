#!/usr/bin/env python3
"""Makes streams in which controllers work over Services, runs the built program on them, and prints how fast it answered.

usage: bench/controllers.py PROGRAM [SERVICES [REQUESTS]]

The Services are 200 and the requests 10,000 unless given. Each stream begins with a POST of every Service and a settle, and goes on with

- automatic: patches, reports and GETs, with five automatic steps behind each request (`--auto 5`);
- steps: patches, reports, and single steps that the request picks;
- settles: patches and reports, and a settle for each tenth request.

The streams are the same each time.
"""
import json
import random
import sys

from requests import ROOT, manifest, run_on


def request(method, path, body=None):
    data = b"" if body is None else json.dumps(body, separators=(",", ":")).encode()
    return f"{method} {path} HTTP/1.1\r\nHost: bench\r\nContent-Length: {len(data)}\r\n\r\n".encode() + data


def part(truth):
    return {"status": "True"} if truth else {"status": "False", "reason": "Broken"}


def posted(services):
    """Each Service, made and settled."""
    made = []
    for i in range(services):
        body = manifest("Service", f"s{i}", "img-0")
        made.append(request("POST", f"{ROOT}/services", body))
    return made + [request("POST", "/control/settle")]


def change(chance, services):
    """A patch of a Service, a report on its first Revision, or a GET."""
    name = f"s{chance.randrange(services)}"
    pick = chance.random()
    if pick < 0.3:
        return request("PATCH", f"{ROOT}/services/{name}", {"metadata": {"labels": {"at": f"l{chance.randrange(1000)}"}}})
    if pick < 0.6:
        report = {"revisionName": f"{name}-00001", "resourcesAvailable": part(True), "containerHealthy": part(chance.random() < 0.8)}
        return request("POST", "/control/reports", report)
    return request("GET", f"{ROOT}/services/{name}")


def step(chance, services):
    controller = chance.choice(["Service", "Configuration", "Revision", "Route"])
    name = f"s{chance.randrange(services)}" + ("-00001" if controller == "Revision" else "")
    return request("POST", "/control/steps", {"controller": controller, "name": name})


def streams(services, count):
    chance = random.Random(11)
    yield "automatic", ["--auto", "5"], posted(services) + [change(chance, services) for _ in range(count)]
    picked = [step(chance, services) if chance.random() < 0.6 else change(chance, services) for _ in range(count)]
    yield "steps", [], posted(services) + picked
    settled = [request("POST", "/control/settle") if i % 10 == 9 else change(chance, services) for i in range(count)]
    yield "settles", [], posted(services) + settled


def main(program, services=200, count=10000):
    worst = 0
    for name, words, made in streams(int(services), int(count)):
        print(f"{name}: ", end="", flush=True)
        worst = max(worst, run_on([program, "replay", *words], made))
    return worst


if __name__ == "__main__":
    sys.exit(main(*sys.argv[1:]))
