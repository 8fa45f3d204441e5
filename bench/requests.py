#!/usr/bin/env python3
"""Makes a stream of mixed client requests over some objects, runs the built program on it, and prints how fast it answered.

Both the requests and the replies are files, so that no other program is waited for. The memory is the program's own, as GNU time tells it.

usage: bench/requests.py PROGRAM [REQUESTS [OBJECTS]]

The requests are 20,000 over 200 objects unless given: half of them GETs of one object, the others PUTs, PATCHes, lists, polls,
and DELETEs with a POST behind them. The stream is the same each time.
"""
import json
import random
import subprocess
import sys
import tempfile
import time

ROOT = "/apis/serving.knative.dev/v1/namespaces/default"
PLURAL = {"Service": "services", "Configuration": "configurations", "Route": "routes"}


def manifest(kind, name, image, version=None):
    spec = {}
    if kind != "Route":
        spec["template"] = {"spec": {"containers": [{"image": image}], "timeoutSeconds": 30}}
    if kind == "Route":
        spec["traffic"] = [{"configurationName": "c", "percent": 100}]
    metadata = {"name": name, "labels": {"image": image}}
    if version is not None:
        metadata["resourceVersion"] = str(version)
    return {"apiVersion": "serving.knative.dev/v1", "kind": kind, "metadata": metadata, "spec": spec}


def request(method, path, body=None):
    data = b"" if body is None else json.dumps(body, separators=(",", ":")).encode()
    return f"{method} {ROOT}/{path} HTTP/1.1\r\nHost: bench\r\nContent-Length: {len(data)}\r\n\r\n".encode() + data


def requests(count, objects):
    """The requests. The versions that stand are followed, so that each replacement is a fresh one."""
    chance = random.Random(7)
    kinds = list(PLURAL)
    version = 0
    standing = []
    made = []
    for i in range(objects):
        kind, name = kinds[i % len(kinds)], f"o{i}"
        made.append(request("POST", PLURAL[kind], manifest(kind, name, "img-0")))
        version += 1
        standing.append([kind, name, version])
    while len(made) < count:
        entry = chance.choice(standing)
        kind, name, at = entry
        path = f"{PLURAL[kind]}/{name}"
        pick = chance.random()
        if pick < 0.5:
            made.append(request("GET", path))
        elif pick < 0.7:
            version += 1
            made.append(request("PUT", path, manifest(kind, name, f"img-{version}", at)))
            entry[2] = version
        elif pick < 0.85:
            version += 1
            made.append(request("PATCH", path, {"metadata": {"labels": {"image": f"img-{version}"}}}))
            entry[2] = version
        elif pick < 0.87:
            made.append(request("GET", f"{PLURAL[kind]}"))
        elif pick < 0.95:
            made.append(request("GET", f"{PLURAL[kind]}?watch=1&resourceVersion={version - min(version, 20)}"))
        else:
            made.append(request("DELETE", path))
            made.append(request("POST", PLURAL[kind], manifest(kind, name, "img-0")))
            version += 2
            entry[2] = version
    return made[:count]


def run_on(words, made):
    """Runs the words on the stream of these requests, prints how long it took, and gives the status."""
    return timed_on(words, made)[0]


def timed_on(words, made):
    """The same, which gives the seconds too."""
    with tempfile.TemporaryFile() as stream, tempfile.TemporaryFile() as replies, tempfile.NamedTemporaryFile() as memory:
        for one in made:
            stream.write(one)
        size = stream.tell()
        stream.seek(0)
        begin = time.monotonic()
        timed = ["/usr/bin/time", "--quiet", "--format=%M", f"--output={memory.name}", *words]
        run = subprocess.run(timed, stdin=stream, stdout=replies, check=False)
        took = time.monotonic() - begin
        replies.seek(0)
        output = replies.read()
        peak = int(memory.read()) / 1024
    refused = output.count(b'"status":"Failure"')
    print(f"{len(made)} requests ({size / 1e6:.1f} MB in, {len(output) / 1e6:.1f} MB out, {refused} refused): "
          f"{took:.3f} s, {len(made) / took:,.0f} a second, {peak:.0f} MB at most")
    return run.returncode, took


def main(program, count=20000, objects=200):
    return run_on([program, "replay"], requests(int(count), int(objects)))


if __name__ == "__main__":
    sys.exit(main(*sys.argv[1:]))
