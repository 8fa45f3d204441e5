"""Random streams of clients, reports, steps and moves of the clock: behind each a settle leaves a quiet plane, so that a further one is a single turn
that writes nothing. The streams are the same at each run."""
import json
import random

ROOT = "/apis/serving.knative.dev/v1/namespaces/default"
NAMES = ("a", "b", "c")
KINDS = {"Service": "services", "Configuration": "configurations", "Route": "routes"}


def request(method, path, body=None):
    data = b"" if body is None else json.dumps(body, separators=(",", ":")).encode()
    return f"{method} {path} HTTP/1.1\r\nHost: x\r\nContent-Length: {len(data)}\r\n\r\n".encode() + data


def spec(rng, kind):
    image = {"spec": {"containers": [{"image": f"img-{rng.randrange(3)}"}]}}
    name = rng.choice(NAMES)
    if kind == "Configuration":
        return {"template": image}
    if kind == "Service":
        traffic = [{"percent": 100}] if rng.random() < 0.7 else [{"percent": 60}, {"percent": 40, "revisionName": f"{name}-00001"}]
        return {"template": image, "traffic": traffic}
    if rng.random() < 0.5:
        return {"traffic": [{"configurationName": name, "percent": 100}]}
    return {"traffic": [{"revisionName": f"{name}-0000{rng.randrange(1, 3)}", "percent": 100}, {"configurationName": name, "percent": 0, "tag": "now"}]}


def any_request(rng, now):
    kind = rng.choice(tuple(KINDS))
    name = rng.choice(NAMES)
    path = f"{ROOT}/{KINDS[kind]}"
    part = {"status": rng.choice(("True", "True", "False", "Unknown"))}
    draw = rng.random()
    if draw < 0.25:
        return request("POST", path, {"apiVersion": "serving.knative.dev/v1", "kind": kind, "metadata": {"name": name}, "spec": spec(rng, kind)})
    if draw < 0.4:
        return request("PATCH", f"{path}/{name}", {"spec": spec(rng, kind)})
    if draw < 0.5:
        return request("DELETE", f"{ROOT}/{rng.choice((*KINDS.values(), 'revisions'))}/{name}{rng.choice(('', '-00001'))}")
    if draw < 0.65:
        return request("POST", "/control/reports", {"revisionName": f"{name}-0000{rng.randrange(1, 4)}", "resourcesAvailable": part,
                                                    "containerHealthy": {"status": "True"}})
    if draw < 0.9:
        controller = rng.choice(("Service", "Configuration", "Revision", "Collector", "Route"))
        return request("POST", "/control/steps", {"controller": controller, "name": name + rng.choice(("", "", "-00001"))})
    if draw < 0.95:
        return request("POST", "/control/clock", {"now": now})
    return request("POST", "/control/settle")


def quiet_streams():
    """Each stream, with the words of its run."""
    for seed in range(200):
        rng = random.Random(seed)
        line = ["replay", "--min-non-active-revisions", "0", "--max-non-active-revisions", str(seed % 3), "--retain-since-create-time", "10s",
                "--retain-since-last-active-time", "10s", "--auto", str(seed % 4)]
        yield line, b"".join(any_request(rng, 5 * place) for place in range(60)) + 2 * request("POST", "/control/settle")


def is_quiet(out):
    """Whether the last two replies are settles of which the second is one turn and writes nothing."""
    bodies = [json.loads(part.split(b"\r\n\r\n", 1)[1]) for part in out.split(b"HTTP/1.1 ")[-2:]]
    return bodies[1] == {"journal": bodies[0]["journal"], "turns": 1}
