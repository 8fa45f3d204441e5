"""Tables of control calls: reports, the clock, steps, settles, the summary and the Tables. tables.py runs them."""
import copy

ABSENT = object()
BLUE = "/apis/serving.knative.dev/v1/namespaces/blue"
PART = {"status": "True", "reason": "r", "message": "m"}
REPORT = {"revisionName": "x-00001", "resourcesAvailable": dict(PART), "containerHealthy": dict(PART), "namespace": "blue"}
STEP = {"controller": "Route", "name": "x", "namespace": "blue"}
NOBODY = 'revisions "x-00001" not found'
UNKNOWN = b'{"outcome":"Unknown"}'
UNREADABLE = "the body is not readable JSON"


def changed(body, path, value):
    """The body with another value under the path, or with none there."""
    body = copy.deepcopy(body)
    inner = body
    *way, last = path.split(".")
    for step in way:
        inner = inner[step]
    if value is ABSENT:
        inner.pop(last)
    else:
        inner[last] = value
    return body


def fields(target, good, table, done):
    """Each field with each value that is wrong, each that is no fault, and the first of two faults. A good body has the code and the message."""
    code, message = done
    yield "POST", target, "{", 400, UNREADABLE
    yield "POST", target, "", 400, UNREADABLE
    for body in ("[]", "7", '"x"', "null", "true"):
        yield "POST", target, body, 400, "wrong shape at body"
    yield "POST", target, good, code, message
    yield "POST", target, {**good, "more": [1]}, code, message
    for i, (path, wrong, free) in enumerate(table):
        for value in wrong:
            yield "POST", target, changed(good, path, value), 400, f"wrong shape at {path}"
        for value in free:
            yield "POST", target, changed(good, path, value), code, message
        for later, bad, _ in table[i + 1:]:
            if not later.startswith(path):
                yield "POST", target, changed(changed(good, later, bad[0]), path, wrong[0]), 400, f"wrong shape at {path}"
    yield "POST", target + "?dryRun=All", good, 400, "bad query"
    yield "POST", target + "?dryRun=All", "{", 400, "bad query"
    yield "POST", target + "?dryRun=&watch=7", good, code, message
    for method in ("GET", "PUT", "PATCH", "DELETE", "HEAD"):
        yield method, target, good, 405, "no such method on this path"
    yield "POST", target + "/x", good, 404, "no such path"


def reports():
    texts = (7, True, [], {})
    part = []
    for name in ("resourcesAvailable", "containerHealthy"):
        part += [(name, (ABSENT, None, "", 7, []), ()),
                 (f"{name}.status", (ABSENT, None, "", "true", "Ready", 7), ("False", "Unknown")),
                 (f"{name}.reason", texts, (ABSENT, None, "", "x")), (f"{name}.message", texts, (ABSENT, None, "", "x"))]
    table = [("revisionName", (ABSENT, None) + texts, ()), *part,
             ("namespace", texts + ("Up", "a.b", "-a", "a" * 64), ("a" * 63,))]
    yield from fields("/control/reports", REPORT, table, (404, NOBODY))
    yield "POST", "/control/reports", changed(REPORT, "revisionName", ""), 404, 'revisions "" not found'
    for space in (ABSENT, None, "", "default"):
        yield "POST", "/control/reports", changed(REPORT, "namespace", space), 404, NOBODY


def steps():
    texts = (7, True, [], {})
    words = ("Service", "Configuration", "Revision", "Collector", "Route")
    table = [("controller", (ABSENT, None, "", "route", "Health", 7), words), ("name", (ABSENT, None) + texts, ("", "nobody")),
             ("namespace", texts + ("Up", "a.b", "-a", "a" * 64), (ABSENT, None, "", "default", "a" * 63))]
    yield from fields("/control/steps", STEP, table, (200, UNKNOWN))


def clock():
    def at(now):
        return {"now": now}

    wrong = (ABSENT, None, "", -1, 253402300800, 18446744073709551615, True, [], {}, "0", "1970-01-01T00:00:00", "1970-01-01t00:00:00Z",
             "1970-02-30T00:00:00Z", "1970-01-01T24:00:00Z", "1970-01-01T00:60:00Z", "1970-01-01T00:00:60Z", "1969-12-31T23:59:59Z",
             "10000-01-01T00:00:00Z", " 1970-01-01T00:00:00Z")
    yield from fields("/control/clock", at(0), [("now", wrong, (0, "1970-01-01T00:00:00Z"))], (200, b'{"now":0}'))
    yield "POST", "/control/clock", '{"now":1.5}', 400, UNREADABLE
    yield "POST", "/control/clock", at(10), 200, b'{"now":10}'
    yield "POST", "/control/clock", at(9), 422, "now: the clock stands at 10"
    yield "POST", "/control/clock", at(10), 200, b'{"now":10}'
    yield "POST", "/control/clock", at("1970-01-01T00:00:09Z"), 422, "now: the clock stands at 10"
    yield "POST", "/control/clock", at("2000-02-29T12:34:56Z"), 200, b'{"now":951827696}'
    yield "GET", "/control/summary", "", 200, ("now", 951827696)
    yield "POST", "/control/clock", at(253402300799), 200, b'{"now":253402300799}'
    yield "POST", "/control/clock", at("9999-12-31T23:59:59Z"), 200, b'{"now":253402300799}'
    yield "POST", "/control/clock", at(253402300798), 422, "now: the clock stands at 253402300799"


def overviews():
    """The summary, the Tables and settles, over a world in which nothing was written; and the calls that a Revision refuses."""
    empty = b'{"configurations":0,"health":0,"journal":0,"now":0,"revisions":0,"routes":0,"services":0,"tables":0}'
    yield "GET", "/control/summary", "", 200, empty
    yield "GET", "/control/summary?watch=7", "{", 200, empty
    yield "GET", "/control/tables", "", 200, b'{"items":[],"kind":"TableList","resourceVersion":"0"}'
    yield "GET", "/control/tables?watch=1", "", 200, b'{"events":[],"kind":"Poll","resourceVersion":"0"}'
    yield "GET", "/control/tables?watch=1&resourceVersion=1", "", 400, "resourceVersion 1 is beyond 0"
    yield "GET", "/control/tables?watch=2", "", 400, "bad query"
    yield "POST", "/control/settle", "", 200, b'{"journal":0,"turns":1}'
    yield "POST", "/control/settle", "{", 200, b'{"journal":0,"turns":1}'
    for path in ("/control/summary", "/control/tables", "/control/settle"):
        method, other = ("POST", "GET") if path.endswith("settle") else ("GET", "POST")
        yield method, path + "?dryRun=x", "", 400, "bad query"
        yield other, path, "", 405, "no such method on this path"
        yield method, path + "/", "", 404, "no such path"
    yield "GET", f"{BLUE}/revisions/x", "", 404, 'revisions "x" not found'
    yield "DELETE", f"{BLUE}/revisions/x", "", 404, 'revisions "x" not found'
    yield "DELETE", f"{BLUE}/revisions/x?dryRun=1", "", 400, "bad query"
    for method in ("PUT", "PATCH", "POST"):
        yield method, f"{BLUE}/revisions/x", "{", 405, "no such method on this path"
    yield "POST", f"{BLUE}/revisions", "{", 405, "no such method on this path"


CONTROL_TABLES = (reports, steps, clock, overviews)
