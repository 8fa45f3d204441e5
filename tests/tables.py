#!/usr/bin/env python3
"""Tables of requests and what they get, run against the built program.

usage: tests/tables.py PROGRAM

A table of requests is a list of cases: a method, a target, a body, the code of the reply and, for a refusal, its message (for others a
member of the reply, by its path, with its value, or bytes that the reply has). All cases of a table go to one world, in order, as
one stream of requests. A table of runs has for each case the words, the input, the status and the output. The expected texts are
those of docs/API.md, docs/RESOURCES.md and docs/FORMATS.md.
"""
import copy
import json
import os
import subprocess
import sys

from control_cases import CONTROL_TABLES
from gateway_cases import gateway_polls
from quiet_streams import is_quiet, quiet_streams

ROOT = "/apis/serving.knative.dev/v1/namespaces"
BLUE = ROOT + "/blue"
PLURAL = {"Service": "services", "Configuration": "configurations", "Route": "routes"}
ABSENT = object()


# ---- manifests

def template(**spec):
    return {"metadata": {"labels": {"a": "b"}, "annotations": {"a": "b"}},
            "spec": {"containers": [{"image": "img"}], "containerConcurrency": 1, "timeoutSeconds": 2, **spec}}


def target(kind):
    if kind == "Service":
        return {"latestRevision": True, "percent": 100, "tag": "now"}
    return {"configurationName": "c", "latestRevision": True, "percent": 100, "tag": "now"}


def manifest(kind, name):
    spec = {}
    if kind != "Route":
        spec["template"] = template()
    if kind != "Configuration":
        spec["traffic"] = [target(kind)]
    return {"apiVersion": "serving.knative.dev/v1", "kind": kind,
            "metadata": {"name": name, "namespace": "blue", "labels": {"a": "b"}, "annotations": {"a": "b"}}, "spec": spec}


def steps_of(path):
    """The members and places on the way to a path such as spec.traffic[0].tag."""
    steps = []
    for part in path.split("."):
        name, _, rest = part.partition("[")
        steps.append(name)
        if rest:
            steps.append(int(rest[:-1]))
    return steps


def changed(value, path, new):
    """The value with another one at the path, or with none there."""
    if path == "body":
        return new
    value = copy.deepcopy(value)
    inner = value
    *way, last = steps_of(path)
    for step in way:
        if isinstance(inner, dict):
            inner = inner.setdefault(step, {})
        else:
            inner = inner[step]
    if new is ABSENT:
        inner.pop(last, None)
    else:
        inner[last] = new
    return value


# ---- shapes

def rows(kind):
    """The fields in the order in which they are examined: path, a wrong value, what counts as absent and is no fault."""
    free = (ABSENT, None, "")
    head = [("body", [], ()), ("apiVersion", 7, ("",)), ("kind", 7, ("",)), ("metadata", 7, ()), ("metadata.name", 7, ("",)),
            ("metadata.namespace", 7, free), ("metadata.resourceVersion", 7, free), ("metadata.labels", {"x": 7}, free),
            ("metadata.annotations", {"x": []}, free), ("spec", 7, ())]
    pod = [("spec.template", 7, ()), ("spec.template.metadata", 7, free), ("spec.template.metadata.name", 7, free),
           ("spec.template.metadata.labels", {"x": True}, free), ("spec.template.metadata.annotations", 7, free),
           ("spec.template.spec", 7, ()), ("spec.template.spec.containerConcurrency", -1, free),
           ("spec.template.spec.timeoutSeconds", "7", free)]
    traffic = [("spec.traffic", {}, free), ("spec.traffic[0]", 7, ()), ("spec.traffic[0].configurationName", 7, free),
               ("spec.traffic[0].latestRevision", "true", free), ("spec.traffic[0].percent", True, free),
               ("spec.traffic[0].revisionName", {}, free), ("spec.traffic[0].tag", 7, free)]
    return head + (pod if kind != "Route" else []) + (traffic if kind != "Configuration" else [])


def shapes():
    for kind, plural in PLURAL.items():
        path = f"{BLUE}/{plural}"
        table = rows(kind)
        good = manifest(kind, "s")
        for i, (place, wrong, absent) in enumerate(table):
            fault = f"wrong shape at {place}"
            yield "POST", path, changed(good, place, wrong), 400, fault
            for value in (ABSENT, None, ""):
                if value is ABSENT and place in ("body", "spec.traffic[0]"):
                    continue
                case = changed(good, place, value)
                if value not in absent:
                    yield "POST", path, json.dumps(case), 400, fault
                else:
                    yield "POST", path, changed(case, "spec.more", 1), None, f"!{fault}"
            # Of two faults the one that is examined first counts.
            for later, also_wrong, _ in table[i + 1:]:
                if not later.startswith(place) and place != "body":
                    yield "POST", path, changed(changed(good, later, also_wrong), place, wrong), 400, fault
        if kind != "Configuration":
            two = changed(good, "spec.traffic", [{"percent": -1}, {"tag": 7}])
            yield "POST", path, two, 400, "wrong shape at spec.traffic[0].percent"
            two = changed(good, "spec.traffic", [target(kind), {"tag": 7}])
            yield "POST", path, two, 400, "wrong shape at spec.traffic[1].tag"
            two = changed(good, "spec.traffic", [target(kind), None])
            yield "POST", path, two, 400, "wrong shape at spec.traffic[1]"


# ---- rules

LONG = "a" * 43


def rules(kind):
    """Changes that break a rule, in the order in which the rules are examined, with the message."""
    def at(path, new, message):
        return [(path, new)], message

    yield at("metadata.name", "Up", "metadata.name: must be a DNS label of at most 42 bytes")
    if kind != "Route":
        pod = "spec.template.spec"
        name = "spec.template.metadata.name: must begin with the name and a dash and be a DNS label"
        yield at("spec.template.metadata.name", "other-1", name)
        yield at(f"{pod}.containers", [], f"{pod}.containers: must be a list of 1 to 16 containers")
        yield at(f"{pod}.containers[0].image", "", f"{pod}.containers[0].image: must be a text that is not empty")
        yield at(f"{pod}.containerConcurrency", 1001, f"{pod}.containerConcurrency: must be from 0 to 1000")
        yield at(f"{pod}.timeoutSeconds", 601, f"{pod}.timeoutSeconds: must be from 0 to 600")
    if kind != "Configuration":
        first = "spec.traffic[0]"
        if kind == "Service":
            yield at(f"{first}.configurationName", "c", f"{first}.configurationName: must be absent")
        else:
            yield at(f"{first}.configurationName", ABSENT, f"{first}: must name one revision or one configuration")
            yield at(f"{first}.configurationName", "C", f"{first}.configurationName: must be a DNS label")
        yield at(f"{first}.latestRevision", False,
                 f"{first}.latestRevision: must be true exactly where no revision is named")
        yield at(f"{first}.percent", 101, f"{first}.percent: must be from 0 to 100")
        yield at(f"{first}.tag", "Now", f"{first}.tag: must be a DNS label that fits before the name")
        yield at("spec.traffic[1]", {"tag": "now", "configurationName": "d", "percent": 0} if kind == "Route" else
                 {"tag": "now", "percent": 0}, "spec.traffic[1].tag: must be used once")
        yield at("spec.traffic[2]", {"percent": 1, "configurationName": "d"} if kind == "Route" else {"percent": 1},
                 "spec.traffic: the percents must sum to 100")


def broken(good, changes):
    for path, new in changes:
        if path.endswith("]") and path.startswith("spec.traffic"):
            traffic = good["spec"]["traffic"] + [new]
            good = changed(good, "spec.traffic", traffic)
        else:
            good = changed(good, path, new)
    return good


def rule_cases():
    for kind, plural in PLURAL.items():
        path = f"{BLUE}/{plural}"
        table = list(rules(kind))
        good = manifest(kind, "r")
        yield "POST", path, good, 201, None
        for i, (changes, message) in enumerate(table):
            yield "POST", path, broken(good, changes), 422, message
            for later, _ in table[i + 1:]:
                if {p for p, _ in changes} & {p for p, _ in later}:
                    continue
                # An image that is broken needs its container, and two breaks of a target need the target.
                if any(p.startswith(q) for p, _ in later for q, _ in changes):
                    continue
                if message.endswith("used once") or "containers:" in message:
                    continue
                if message.endswith("fits before the name") and later[0][0] == "spec.traffic[1]":
                    continue
                yield "POST", path, broken(good, later + changes), 422, message
    edge = manifest("Configuration", "a" * 42)
    yield "POST", f"{BLUE}/configurations", edge, 201, None
    long = manifest("Configuration", LONG)
    yield "POST", f"{BLUE}/configurations", long, 422, "metadata.name: must be a DNS label of at most 42 bytes"
    for name, code in (("n-1", 201), ("n", 422), ("n-", 422), ("m-1", 422), ("n-" + "1" * 61, 201), ("n-" + "1" * 62, 422)):
        named = changed(manifest("Configuration", "n"), "spec.template.metadata.name", name)
        named["metadata"].pop("namespace", None)
        yield "POST", f"{ROOT}/n{len(name)}-{code}-{name[0]}/configurations", named, code, None
    pod = "spec.template.spec"
    counts = ((0, 422), (1, 201), (16, 201), (17, 422))
    for count, code in counts:
        case = changed(manifest("Configuration", f"c{count}"), f"{pod}.containers", [{"image": "i"}] * count)
        yield "POST", f"{BLUE}/configurations", case, code, None
        targets = [{"percent": 0} for _ in range(count)]
        if targets:
            targets[0] = {"percent": 100}
        case = changed(manifest("Service", f"t{count}"), "spec.traffic", targets)
        # A Service without targets has its default.
        yield "POST", f"{BLUE}/services", case, 201 if count == 0 else code, None
        targets = [{**entry, "configurationName": "c"} for entry in targets]
        case = changed(manifest("Route", f"t{count}"), "spec.traffic", targets)
        yield "POST", f"{BLUE}/routes", case, code, None
    for member, most in (("containerConcurrency", 1000), ("timeoutSeconds", 600)):
        for value, code in ((0, 201), (most, 201), (most + 1, 422), (2 ** 64 - 1, 422)):
            case = changed(manifest("Configuration", f"l{value % 9973}{member[0]}"), f"{pod}.{member}", value)
            yield "POST", f"{BLUE}/configurations", case, code, None
    third = f"{pod}.containers[2].image: must be a text that is not empty"
    for image in ("", 7, None):
        case = changed(manifest("Service", "img"), f"{pod}.containers", [{"image": "i"}, {"image": "i"}, {"image": image}])
        yield "POST", f"{BLUE}/services", case, 422, third
    case = changed(manifest("Service", "img"), f"{pod}.containers", [{"image": "i"}, {"image": "i"}, "img"])
    yield "POST", f"{BLUE}/services", case, 422, third
    # A tag, a dash and the name are at most 63 bytes.
    for length, code in ((20, 201), (21, 422)):
        case = changed(manifest("Service", "a" * 42), "spec.traffic[0].tag", "t" * length)
        yield "POST", f"{ROOT}/tag{length}/services", changed(case, "metadata.namespace", ABSENT), code, None
    for name, most, code in (("r", 63, 201), ("r", 64, 422)):
        entry = {"revisionName": "v" * most, "percent": 100}
        case = changed(manifest("Route", f"{name}{most}"), "spec.traffic", [entry])
        yield "POST", f"{BLUE}/routes", case, code, None
    both = {"revisionName": "v", "configurationName": "c", "percent": 100}
    case = changed(manifest("Route", "both"), "spec.traffic", [both])
    yield "POST", f"{BLUE}/routes", case, 422, "spec.traffic[0]: must name one revision or one configuration"
    old = {"revisionName": "v", "latestRevision": True, "percent": 100}
    case = changed(manifest("Route", "old"), "spec.traffic", [old])
    message = "spec.traffic[0].latestRevision: must be true exactly where no revision is named"
    yield "POST", f"{BLUE}/routes", case, 422, message


# ---- paths, methods and queries

METHODS = ("GET", "POST", "PUT", "PATCH", "DELETE", "HEAD", "OPTIONS", "get")


def paths():
    """Each path with each method: the methods that it has, by what the call says of an empty body or an absent object."""
    named = {"GET": 404, "PUT": 400, "PATCH": 400, "DELETE": 404}
    collections = [(f"{BLUE}/{p}", {"GET": 200, "POST": 400}) for p in PLURAL.values()]
    objects = [(f"{BLUE}/{p}/x", named) for p in PLURAL.values()]
    others = [(f"{BLUE}/revisions", {"GET": 200}), (f"{BLUE}/revisions/x", {"GET": 404, "DELETE": 404}),
              (f"{ROOT}/{'a' * 63}/routes", {"GET": 200, "POST": 400})]
    control = [(f"/control/{p}", {"POST": 400}) for p in ("reports", "clock", "steps")] + [("/control/settle", {"POST": 200})]
    control += [(f"/control/{p}", {"GET": 200}) for p in ("tables", "summary")]
    for path, has in collections + objects + others + control:
        for method in METHODS:
            if method in has:
                yield method, path, "", has[method], None
            else:
                yield method, path, "", 405, "no such method on this path"
    for path in ("/", "*", "/apis", ROOT, f"{ROOT}/", f"{ROOT}/blue", f"{ROOT}/blue/", f"{ROOT}/Blue/services", f"{ROOT}//services",
                 f"{ROOT}/-a/services", f"{ROOT}/{'a' * 64}/services", f"{BLUE}/service", f"{BLUE}/services/", f"{BLUE}/services/a/b",
                 f"{BLUE}/Services", f"{BLUE}/tables", f"{BLUE}/health", f"/{BLUE}/services", f"x{BLUE}/services", "/control", "/control/",
                 "/control/table", "/control/tables/", "/control/tables/x", "/apis/serving.knative.dev/v2/namespaces/blue/services"):
        for method in METHODS:
            yield method, path, "", 404, "no such path"


def queries():
    lists = f"{BLUE}/routes"
    good = ("", "?", "?&", "?a", "?a=b", "?dryRun", "?dryRun=", "?watch=0", "?watch=false", "?watch=1", "?watch=true", "?resourceVersion",
            "?resourceVersion=", "?resourceVersion=0", "?resourceVersion=0&watch=1", "?watch=1&resourceVersion=", "?Watch=7", "?x=1?watch=7",
            "?resourceVersion=9999999999999999999", "?labelSelector=a%3Db&limit=5")
    bad = ("?dryRun=All", "?dryRun=x&watch=1", "?a&dryRun==", "?watch", "?watch=", "?watch=2", "?watch=True", "?watch=1&watch=1",
           "?watch=0&watch=1", "?resourceVersion=1&resourceVersion=1", "?resourceVersion&resourceVersion", "?resourceVersion=x",
           "?resourceVersion=-1", "?resourceVersion=+1", "?resourceVersion=12345678901234567890", "?watch=1=1", "?resourceVersion=1x")
    for query in good:
        yield "GET", lists + query, "", 200, None
    for query in bad:
        yield "GET", lists + query, "", 400, "bad query"
    # On other calls only a dry run is refused.
    for method, path, code in (("GET", f"{BLUE}/routes/x", 404), ("POST", lists, 400), ("DELETE", f"{BLUE}/routes/x", 404)):
        yield method, path + "?watch=7&watch=8&resourceVersion=x", "", code, "!bad query"
        yield method, path + "?dryRun=All", "", 400, "bad query"
    # The method comes before the query, and the path before the method.
    yield "PUT", lists + "?dryRun=All", "", 405, "no such method on this path"
    yield "PUT", f"{BLUE}/x?dryRun=All", "", 404, "no such path"
    yield "GET", lists + "?watch=1&resourceVersion=1", "", 400, "resourceVersion 1 is beyond 0"
    yield "GET", lists + "?watch=true&resourceVersion=0001", "", 400, "resourceVersion 1 is beyond 0"


# ---- what comes first

def calls():
    path, one = f"{BLUE}/configurations", f"{BLUE}/configurations/one"
    good = manifest("Configuration", "one")
    yield "POST", path, "{", 400, "the body is not readable JSON"
    yield "POST", path, '{"a":1.5}', 400, "the body is not readable JSON"
    yield "POST", path, "[" * 33 + "]" * 33, 400, "the body is not readable JSON"
    yield "POST", path, "[" * 32 + "]" * 32, 400, "wrong shape at body"
    # The parts that must match, in their order.
    parts = (("apiVersion", "v1"), ("kind", "Service"), ("metadata.namespace", "red"))
    for i, (part, value) in enumerate(parts):
        case = changed(good, part, value)
        yield "POST", path, case, 400, f"{part} does not match the path"
        yield "POST", path, changed(case, "metadata.resourceVersion", "1"), 400, f"{part} does not match the path"
        for later, other in parts[i + 1:]:
            yield "POST", path, changed(case, later, other), 400, f"{part} does not match the path"
    given = changed(good, "metadata.resourceVersion", "1")
    yield "POST", path, given, 400, "metadata.resourceVersion must be absent"
    yield "POST", path, changed(given, "metadata.name", "Up"), 400, "metadata.resourceVersion must be absent"
    # A replacement: rules, the version, what stands, the version that stands.
    bad = changed(good, "spec.template.spec.timeoutSeconds", 601)
    message = "spec.template.spec.timeoutSeconds: must be from 0 to 600"
    yield "PUT", one, bad, 422, message
    yield "PUT", one, good, 422, "metadata.resourceVersion: must be given"
    yield "PUT", one, given, 404, 'configurations "one" not found'
    yield "PUT", one, changed(given, "metadata.name", "two"), 400, "metadata.name does not match the path"
    # A patch: the body, what stands, and then what the patched document says.
    yield "PATCH", one, "{", 400, "the body is not readable JSON"
    yield "PATCH", one, "7", 404, 'configurations "one" not found'
    yield "POST", path, good, 201, None
    yield "POST", path, good, 409, 'configurations "one" already exists'
    yield "POST", path, bad, 422, message
    yield "PUT", one, changed(given, "metadata.resourceVersion", "2"), 409, 'configurations "one" has version 1'
    yield "PUT", one, changed(given, "metadata.resourceVersion", "01"), 409, 'configurations "one" has version 1'
    yield "PATCH", one, "7", 400, "wrong shape at body"
    yield "PATCH", one, {"metadata": {"name": "two"}}, 400, "metadata.name does not match the path"
    yield "PATCH", one, {"kind": "Route", "metadata": {"resourceVersion": "7"}}, 400, "kind does not match the path"
    yield "PATCH", one, {"spec": {"template": {"spec": {"timeoutSeconds": 601}}}, "metadata": {"resourceVersion": "7"}}, 422, message
    yield "PATCH", one, {"metadata": {"resourceVersion": "7"}}, 409, 'configurations "one" has version 1'
    # A name that is kept, and a template that changes under it.
    kept = "spec.template.metadata.name: the template changed under a kept name"
    named = changed(given, "spec.template.metadata.name", "one-a")
    yield "PUT", one, named, 200, None
    two = changed(named, "metadata.resourceVersion", "2")
    yield "PUT", one, changed(two, "spec.template.spec.timeoutSeconds", 3), 422, kept
    yield "PUT", one, changed(changed(two, "spec.template.spec.timeoutSeconds", 3), "metadata.resourceVersion", "1"), 409, \
        'configurations "one" has version 2'
    yield "PATCH", one, {"spec": {"template": {"spec": {"timeoutSeconds": 3}}}}, 422, kept
    yield "PATCH", one, {"spec": {"template": {"metadata": {"name": "one-b"}, "spec": {"timeoutSeconds": 3}}}}, 200, None
    # What a replacement doesn't change makes no entry.
    three = changed(changed(changed(two, "metadata.resourceVersion", "3"), "spec.template.metadata.name", "one-b"),
                    "spec.template.spec.timeoutSeconds", 3)
    yield "PUT", one, three, 200, None
    yield "PUT", one, three, 200, None
    yield "GET", path + "?watch=1&resourceVersion=4", "", 400, "resourceVersion 4 is beyond 3"
    yield "DELETE", one, "anything", 200, None
    yield "DELETE", one, "", 404, 'configurations "one" not found'
    yield "GET", one, "", 404, 'configurations "one" not found'
    yield "PUT", one, three, 404, 'configurations "one" not found'
    for kind, plural in PLURAL.items():
        yield "GET", f"{BLUE}/{plural}/x", "", 404, f'{plural} "x" not found'
    yield "GET", f"{BLUE}/revisions/x", "", 404, 'revisions "x" not found'


# ---- merges (RFC 7396, appendix A, below a member of a pod spec)

MERGES = [({"a": "b"}, {"a": "c"}, {"a": "c"}), ({"a": "b"}, {"b": "c"}, {"a": "b", "b": "c"}), ({"a": "b"}, {"a": None}, {}),
          ({"a": "b", "b": "c"}, {"a": None}, {"b": "c"}), ({"a": ["b"]}, {"a": "c"}, {"a": "c"}), ({"a": "c"}, {"a": ["b"]}, {"a": ["b"]}),
          ({"a": {"b": "c"}}, {"a": {"b": "d", "c": None}}, {"a": {"b": "d"}}), ({"a": [{"b": "c"}]}, {"a": [1]}, {"a": [1]}),
          (["a", "b"], ["c", "d"], ["c", "d"]), ({"a": "b"}, ["c"], ["c"]), ({"a": "foo"}, "bar", "bar"),
          ({"e": None}, {"a": 1}, {"e": None, "a": 1}), ([1, 2], {"a": "b", "c": None}, {"a": "b"}),
          ({}, {"a": {"bb": {"ccc": None}}}, {"a": {"bb": {}}}), ({"a": [None]}, {"b": [{"c": None}]}, {"a": [None], "b": [{"c": None}]})]


def merges():
    for i, (old, patch, new) in enumerate(MERGES):
        name = f"m{i}"
        yield "POST", f"{BLUE}/configurations", changed(manifest("Configuration", name), "spec.template.spec.x", old), 201, None
        for _ in range(2):
            yield "PATCH", f"{BLUE}/configurations/{name}", {"spec": {"template": {"spec": {"x": patch}}}}, 200, \
                ("spec.template.spec.x", new)


# ---- defaults

def defaults():
    """What stands once a manifest with absent parts was sent: its spec."""
    containers = [{"image": "img"}]
    def pod(**spec):
        return {"spec": {"containers": containers, **spec}}

    pods = [(pod(), pod(containerConcurrency=0, timeoutSeconds=300)),
            (pod(containerConcurrency=5), pod(containerConcurrency=5, timeoutSeconds=300)),
            (pod(timeoutSeconds=0), pod(containerConcurrency=0, timeoutSeconds=0))]
    whole = [{"latestRevision": True, "percent": 100}]
    for i, (given, full) in enumerate(pods):
        case = changed(manifest("Configuration", f"d{i}"), "spec", {"template": given})
        yield "POST", f"{BLUE}/configurations", case, 201, ("spec", {"template": full})
        case = changed(manifest("Service", f"d{i}"), "spec", {"template": given})
        yield "POST", f"{BLUE}/services", case, 201, ("spec", {"template": full, "traffic": whole})
    targets = [([{"configurationName": "c", "percent": 100}], [{"configurationName": "c", "latestRevision": True, "percent": 100}]),
               ([{"revisionName": "v", "percent": 100}], [{"latestRevision": False, "percent": 100, "revisionName": "v"}]),
               ([{"revisionName": "v", "percent": 100}, {"configurationName": "c", "tag": "t"}],
                [{"latestRevision": False, "percent": 100, "revisionName": "v"},
                 {"configurationName": "c", "latestRevision": True, "percent": 0, "tag": "t"}])]
    for i, (given, full) in enumerate(targets):
        case = changed(manifest("Route", f"d{i}"), "spec", {"traffic": given})
        yield "POST", f"{BLUE}/routes", case, 201, ("spec", {"traffic": full})


# ---- JSON, as a member of a pod spec

VALUES = [("null", "null"), (" [ 1 , -2 ,true,\tfalse ] \n", "[1,-2,true,false]"), ("[]", "[]"), ("{ }", "{}"), ("0", "0"),
          ("18446744073709551615", "18446744073709551615"), ("-1", "-1"), ("-9223372036854775808", "-9223372036854775808"),
          (r'"\u00e9\n\u0001\/\""', "\"\u00e9\\n\\u0001/\\\"\""), ('{"b":1,"a":{"y":[],"x":null}}', '{"a":{"x":null,"y":[]},"b":1}'),
          ('{"b":1,"a":2,"b":3}', '{"a":2,"b":3}'), ('{"a":1.5,"a":2}', '{"a":2}'), ('{"a":' + "[" * 33 + "]" * 33 + ',"a":2}', '{"a":2}')]
REFUSED = ["", " ", "nul", "[1,]", "01", "+1", "1e400", "-0", "1.0", "1e2", "18446744073709551616", "[-9223372036854775809]",
           '{"a":2,"a":1.5}', "[" * 128 + "]" * 128, "\ufeff1", b'"\xff"']


def values():
    unreadable = "the body is not readable JSON"
    whole = json.dumps(changed(manifest("Configuration", "NAME"), "spec.template.spec.x", ["VALUE"]))
    before, after = (part.encode() for part in whole.split('"VALUE"'))
    for i, (given, shown) in enumerate(VALUES):
        body = before.replace(b"NAME", b"v%d" % i) + given.encode() + after
        yield "POST", f"{BLUE}/configurations", body, 201, b'"x":[' + shown.encode() + b"]"
    for given in REFUSED:
        given = given if isinstance(given, bytes) else given.encode()
        yield "POST", f"{BLUE}/configurations", given, 400, unreadable
        # An item that is missing leaves an array that can be read.
        if given.strip():
            yield "POST", f"{BLUE}/configurations", before + given + after, 400, unreadable
    # Objects and arrays are at most 32 deep, and the value lies in five.
    for levels, code in ((27, 201), (28, 400)):
        body = before.replace(b"NAME", b"deep") + b"[" * levels + b"]" * levels + after
        yield "POST", f"{BLUE}/configurations", body, code, unreadable if code == 400 else None


# ---- runs: words, input, status and output

def status_of(code, message, reason):
    """The body of a refusal."""
    fields = {"apiVersion": "v1", "code": code, "kind": "Status", "message": message, "reason": reason, "status": "Failure"}
    return json.dumps(fields, separators=(",", ":")).encode()


def reply_of(line, body, *fields, method="GET"):
    """A reply, by its status line without the version, its body and its further fields."""
    head = [f"HTTP/1.1 {line}", "Content-Type: application/json", f"Content-Length: {len(body)}", *fields, "", ""]
    return "\r\n".join(head).encode() + (b"" if method == "HEAD" else body)


FAULTS = {"Malformed": ("400 Bad Request", "the head is malformed", "BadRequest"),
          "HeadTooLarge": ("431 Request Header Fields Too Large", "the head is too large", "HeadTooLarge"),
          "BadLength": ("400 Bad Request", "the length of the body is malformed", "BadRequest"),
          "TransferEncoding": ("501 Not Implemented", "transfer encodings are not supported", "NotImplemented"),
          "BodyTooLarge": ("413 Payload Too Large", "the body is too large", "RequestEntityTooLarge")}
CLOSE = "Connection: close"
NO_PATH = status_of(404, "no such path", "NotFound")
NO_METHOD = status_of(405, "no such method on this path", "MethodNotAllowed")


def bad_heads():
    post = "POST / HTTP/1.1\r\n"
    get = "GET / HTTP/1.1\r\n"
    for head, name in (("hello\r\n\r\n", "Malformed"), ("GET / HTTP/2.0\r\n\r\n", "Malformed"),
                       (f"{post}Content-Length: 1\r\nContent-Length: 1\r\n\r\nx", "BadLength"),
                       ("HEAD / HTTP/1.1\r\nContent-Length:\r\n\r\n", "BadLength"), (f"{post}Content-Length: +1\r\n\r\nx", "BadLength"),
                       (f"{post}Content-Length: 1, 1\r\nTransfer-Encoding: chunked\r\n\r\nx", "BadLength"),
                       (f"{post}Transfer-Encoding: chunked\r\nContent-Length: 70000\r\n\r\n", "TransferEncoding"),
                       (f"{post}Content-Length: 65537\r\n\r\n", "BodyTooLarge"),
                       (f"{post}Content-Length: 100000000000000000000000000000\r\n\r\n", "BodyTooLarge"),
                       ("\n" * 8192, "HeadTooLarge"), ("x" * 8192, "HeadTooLarge"), (get + "F: v\r\n" * 65 + "\r\n", "HeadTooLarge")):
        line, message, reason = FAULTS[name]
        refusal = reply_of(line, status_of(int(line[:3]), message, reason), CLOSE)
        yield ["replay"], head, 7, refusal
        # What stands before it is answered.
        yield ["replay"], f"{get}\r\n{head}", 7, reply_of("404 Not Found", NO_PATH) + refusal


def streams():
    get = "GET / HTTP/1.1\r\n"
    answer = reply_of("404 Not Found", NO_PATH)
    closed = reply_of("404 Not Found", NO_PATH, CLOSE)
    long = "POST / HTTP/1.1\r\nContent-Length: 65536\r\n\r\n"
    for text, status, out in (("", 0, b""), ("\r\n\n", 0, b""), ("\r", 5, b""), ("GET /a HTTP/1.1\r\n", 5, b""),
                              ("POST /a HTTP/1.1\r\nContent-Length: 3\r\n\r\nab", 5, b""),
                              ("\r\nPOST /a HTTP/1.1\r\ncontent-length: \t003 \r\n\r\nabcHEAD /b HTTP/1.1\n\n", 0,
                               answer + reply_of("404 Not Found", NO_PATH, method="HEAD")),
                              ("GET /a HTTP/1.0\r\n\r\nhello\r\n\r\n", 0, closed),
                              ("GET /a HTTP/1.1\r\nConnection: te\r\nConnection: keep-alive , Close\r\n\r\n" + get, 0, closed),
                              ("\n" * 8191, 0, b""), ("x" * 8191, 5, b""), (get + "F: v\r\n" * 64 + "\r\n", 0, answer),
                              (long + "x" * 65536, 0, answer), (long + "x" * 65535, 5, b"")):
        yield ["replay"], text, status, out
    for path, allow in ((f"{BLUE}/routes", "GET, POST"), (f"{BLUE}/routes/x", "GET, PUT, PATCH, DELETE"), (f"{BLUE}/revisions", "GET"),
                        (f"{BLUE}/revisions/x", "GET, DELETE"), ("/control/clock", "POST"), ("/control/tables", "GET")):
        out = reply_of("405 Method Not Allowed", NO_METHOD, f"Allow: {allow}", CLOSE)
        yield ["replay"], f"OPTIONS {path} HTTP/1.0\r\n\r\n", 0, out


def checks():
    """A manifest by itself. The run that shows one with its defaults is stored in tests/runs."""
    def refused(message, code=400, reason="BadRequest"):
        return status_of(code, message, reason) + b"\n"

    route = changed(changed(manifest("Route", "r"), "apiVersion", "v1"), "spec", {})
    for body, message in (("{", "the body is not readable JSON"), ("[]", "wrong shape at body"),
                          ('{"apiVersion":7,"kind":"Pod"}', "wrong shape at apiVersion"), ('{"apiVersion":"v1","kind":7}', "wrong shape at kind"),
                          # The kind comes before the rest of the shape, and this before the version of the API.
                          ('{"apiVersion":"v1","kind":"Pod"}', "kind does not match the path"),
                          ('{"apiVersion":"v1","kind":"Route"}', "wrong shape at metadata"),
                          (json.dumps(route), "apiVersion does not match the path"),
                          (json.dumps(changed(route, "metadata.namespace", "-")), "apiVersion does not match the path"),
                          (" " * 65536, "the body is not readable JSON")):
        yield ["check"], body, 8, refused(message)
    yield ["check"], " " * 65537, 8, refused("the body is too large", 413, "RequestEntityTooLarge")


def words():
    twice = ["--auto", "1", "--auto", "2"]
    for line in ([], ["walk"], ["Replay"], ["--help"], ["replay", "x"], ["replay", ""], ["replay", "--"], ["replay", "--help"],
                 ["check", "-"], ["check", "-h"], ["replay", "check"], ["check", "--auto", "1"], ["check", "--auto=1"], ["--auto", "1", "replay"],
                 # Options: each once, with a value, which begins with no hyphen in a word of its own.
                 ["replay", *twice], ["replay", "--auto=1", "--auto=1"], ["replay", "--domain", "a", "--auto=1", "--domain", "a"],
                 ["replay", "--auto"], ["replay", "--auto", "--domain", "a"], ["replay", "--domain", "a", "--auto"], ["replay", "--domain", "-"],
                 ["replay", "--domain", "-a"], ["replay", "--domain", "--"], ["replay", "--domain", "a", "--"], ["replay", "--domain", "a", "b"],
                 ["replay", "-auto", "1"], ["replay", "-a", "1"], ["replay", "--aut", "1"], ["replay", "--Auto", "1"], ["replay", "--auto ", "1"],
                 ["replay", "--=1"], ["replay", "auto=1"], ["replay", "--listen", "a"], ["replay", "--sessions", "1"],
                 # The automatic steps: 1 to 10 digits, at most 10,000.
                 ["replay", "--auto="], ["replay", "--auto", ""], ["replay", "--auto", "10001"], ["replay", "--auto", "00000000001"],
                 ["replay", "--auto=-1"], ["replay", "--auto=+1"], ["replay", "--auto= 1"], ["replay", "--auto=1.0"], ["replay", "--auto==1"],
                 # The domain: labels of at most 63 bytes joined by dots, at most 100 bytes.
                 ["replay", "--domain="], ["replay", "--domain", ""], ["replay", "--domain=-"], ["replay", "--domain", "a..b"], ["replay", "--domain", "A"],
                 ["replay", "--domain", "a" * 64], ["replay", "--domain", "a." * 50 + "a"],
                 # The settings of collection: durations, counts or `disabled`, and the least not above the most, which is 1,000 unless given.
                 ["replay", "--retain-since-create-time", "48"], ["replay", "--retain-since-create-time="],
                 ["replay", "--retain-since-last-active-time", "1d"], ["replay", "--retain-since-last-active-time", "Disabled"],
                 ["replay", "--min-non-active-revisions", "disabled"], ["replay", "--min-non-active-revisions", "1001"],
                 ["replay", "--max-non-active-revisions", "19"], ["replay", "--max-non-active-revisions", "5h"],
                 ["replay", "--min-non-active-revisions=3", "--max-non-active-revisions=2"],
                 # A server: an address of 1 to 255 bytes, which has to be given, and 1 to 4,294,967,295 sessions.
                 ["serve"], ["serve", "--listen"], ["serve", "--listen="], ["serve", "--listen", ""], ["serve", "--listen", "a" * 256], ["serve", "127.0.0.1:0"],
                 ["serve", "--sessions", "1"], ["serve", "--listen", "a", "--listen", "b"], ["serve", "--listen", "a", "--sessions", "0"],
                 ["serve", "--listen", "a", "--sessions", "4294967296"], ["serve", "--listen", "a", "--auto", "10001"],
                 # A number from 1 to 500, alone.
                 ["gen"], ["gen", "0"], ["gen", "501"], ["gen", "1", "1"], ["gen", "-1"], ["gen", "1x"], ["gen", "--", "1"], ["gen", "--auto", "1"], ["gen", ""],
                 ["drill"], ["drill", "0"], ["drill", "501"], ["drill", "1", "--auto=1"], ["drill", "00000000001"],
                 # All three options of a pick are given: a host of 1 to 255 bytes, a first number, and 1 to 100,000 numbers.
                 ["pick"], ["pick", "--host", "h"], ["pick", "--host", "h", "--first", "0"], ["pick", "--first", "0", "--count", "1"],
                 ["pick", "--host=", "--first=0", "--count=1"], ["pick", "--host=" + "h" * 256, "--first=0", "--count=1"],
                 ["pick", "--host=h", "--first=4294967296", "--count=1"], ["pick", "--host=h", "--first=0", "--count=0"],
                 ["pick", "--host=h", "--first=0", "--count=100001"], ["pick", "--host=h", "--first=0", "--count=1", "--auto=1"],
                 ["export", "x"], ["import", "x"]):
        yield line, "GET / HTTP/1.1\r\n\r\n", 2, b""
    for line in (["--auto", "0"], ["--auto=10000"], ["--auto", "0000010000"], ["--domain", "a"], ["--domain=a" + ".a" * 49], ["--domain", "a" * 63],
                 ["--retain-since-create-time", "0h"], ["--retain-since-create-time=disabled"], ["--retain-since-last-active-time", "1h30s"],
                 ["--min-non-active-revisions", "1000"], ["--max-non-active-revisions=20"], ["--max-non-active-revisions", "disabled"],
                 ["--min-non-active-revisions", "9999999999", "--max-non-active-revisions", "disabled"],
                 ["--max-non-active-revisions=2", "--min-non-active-revisions=2", "--retain-since-last-active-time", "disabled",
                  "--retain-since-create-time=1h", "--domain", "blue.example.com", "--auto", "7"]):
        yield ["replay", *line], "", 0, b""


def ends(program):
    """Real ends that fail: a folder can't be read, and nothing fits on a full device. Each run, with the status that it had and is due."""
    for word, *more in (["replay"], ["check"], ["pick", "--host=h", "--first=0", "--count=1"]):
        folder = os.open("/", os.O_RDONLY)
        run = subprocess.run([program, word, *more], stdin=folder, capture_output=True, check=False, timeout=60)
        os.close(folder)
        yield f"{word} of a folder", run.returncode, 3
        with open("/dev/full", "wb") as full:
            given = b"" if more else b"GET / HTTP/1.1\r\n\r\n"
            run = subprocess.run([program, word, *more], input=given, stdout=full, stderr=subprocess.PIPE, check=False, timeout=60)
            yield f"{word} to a full device", run.returncode, 4
    for word in ("gen", "drill"):
        with open("/dev/full", "wb") as full:
            run = subprocess.run([program, word, "1"], stdout=full, stderr=subprocess.PIPE, check=False, timeout=60)
            yield f"{word} to a full device", run.returncode, 4
    run = subprocess.run([program, "serve", "--listen", "no address"], capture_output=True, check=False, timeout=60)
    yield "serve at no address", run.returncode, 6


# ---- running

def stream(cases):
    parts = []
    for method, path, body, _, _ in cases:
        data = body if isinstance(body, (str, bytes)) else json.dumps(body, separators=(",", ":"))
        data = data if isinstance(data, bytes) else data.encode()
        parts.append(f"{method} {path} HTTP/1.1\r\nHost: x\r\nContent-Length: {len(data)}\r\n\r\n".encode() + data)
    return b"".join(parts)


def replies(out, cases):
    """The replies, one for each case: code, head and body. Any other output is a ValueError."""
    found = []
    at = 0
    for method, *_ in cases:
        end = out.index(b"\r\n\r\n", at) + 4
        head = out[at:end].decode()
        length = int(head.split("Content-Length: ")[1].split("\r\n")[0])
        body = b"" if method == "HEAD" else out[end:end + length]
        at = end + len(body)
        found.append((int(head.split(" ")[1]), head, body))
    if at != len(out):
        raise ValueError(f"{len(out) - at} bytes more than these replies")
    return found


def differs(case, reply):
    method, path, _, code, message = case
    got, head, body = reply
    if code is not None and got != code:
        return f"code {got}, not {code}: {body[:200]!r}"
    if (got == 405) != ("Allow: " in head):
        return "Allow stands exactly in a reply of code 405"
    if method == "HEAD" or message is None:
        return None
    if isinstance(message, bytes):
        return None if message in body else f"{message!r} isn't in {body!r}"
    said = json.loads(body)
    if isinstance(message, tuple):
        path, value = message
        found = said
        for step in steps_of(path):
            found = found[step]
        return None if found == value else f"{found!r}, not {value!r}"
    text = said.get("message", "")
    if message.startswith("!"):
        return f"message {text!r}" if text == message[1:] else None
    return None if text == message else f"message {text!r}, not {message!r}"


def request_faults(program, table):
    """How many cases a table of requests has, and what is wrong with them."""
    cases = list(table())
    run = subprocess.run([program, "replay"], input=stream(cases), capture_output=True, check=False, timeout=60)
    wrong = []
    if run.returncode != 0:
        wrong.append(f"status {run.returncode}: {run.stderr.decode()}")
    try:
        found = replies(run.stdout, cases)
    except (ValueError, IndexError) as fault:
        wrong.append(f"the output isn't a reply for each case: {fault}")
        found = []
    for case, reply in zip(cases, found):
        fault = differs(case, reply)
        if fault:
            wrong.append(f"{case[0]} {case[1]} {str(case[2])[:300]}: {fault}")
    return len(cases), wrong


def run_faults(program, table):
    """The same of a table of runs."""
    count, wrong = 0, []
    for line, given, status, out in table():
        count += 1
        run = subprocess.run([program, *line], input=given.encode(), capture_output=True, check=False, timeout=60)
        if (run.returncode, run.stdout) != (status, out):
            wrong.append(f"{line} {given[:100]!r}: {run.returncode} {run.stdout[:300]!r}, not {status} {out[:300]!r}")
    return count, wrong


def end_faults(program, table):
    """The same of runs over ends that fail."""
    found = list(table(program))
    return len(found), [f"{name}: {status}, not {due}" for name, status, due in found if status != due]


def stream_faults(program, table):
    """The same of streams behind which the plane is to be quiet."""
    count, wrong = 0, []
    for line, given in table():
        count += 1
        run = subprocess.run([program, *line], input=given, capture_output=True, check=False, timeout=60)
        if run.returncode != 0 or not is_quiet(run.stdout):
            wrong.append(f"stream {count}: {run.returncode} {run.stdout[-400:]!r}")
    return count, wrong


TABLES = ((request_faults, (shapes, rule_cases, paths, queries, calls, merges, defaults, values, *CONTROL_TABLES)),
          (run_faults, (bad_heads, streams, checks, words, gateway_polls)), (end_faults, (ends,)),
          (stream_faults, (quiet_streams,)))


def main(program):
    failed = 0
    for faults, tables in TABLES:
        for table in tables:
            count, wrong = faults(program, table)
            for line in wrong[:20]:
                print(f"{table.__name__}: {line}")
            print(f"{table.__name__}: {count} cases, {len(wrong)} wrong")
            failed += len(wrong)
    return 1 if failed else 0


if __name__ == "__main__":
    sys.exit(main(sys.argv[1]))
