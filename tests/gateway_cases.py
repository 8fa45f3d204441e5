"""The table of what a gateway follows: the words of `pick`, polls as the lines of its input, the status and the output."""
import json

UID = "00000000-0000-4000-8000-%012x"


def row(host="h", percent=100, revision="a", uid=1, **more):
    return {"host": host, "percent": percent, "revisionName": revision, "revisionUid": UID % uid, **more}


def added(*rows, name="t", **more):
    return {"object": {"kind": "Table", "name": name, "rows": list(rows), **more}, "type": "ADDED"}


def poll(*events, version="1", **more):
    return json.dumps({"events": list(events), "kind": "Poll", "resourceVersion": version, **more}, separators=(",", ":")) + "\n"


def picked(*lines):
    return "".join(f"{number} {revision} {UID % uid}\n" if revision else f"{number} -\n" for number, revision, uid in lines).encode()


def gateway_polls():
    one = ["pick", "--host", "h", "--first", "8", "--count", "1"]
    found, none = picked((8, "a", 1)), picked((8, None, 0))
    halves = (row(percent=90), row(percent=10, revision="b", uid=2))
    # What is followed, and what the number 8 then picks; its place is 96.
    for text, out in (("", none), ("\n\n", none), (poll(), none), (poll(added(row())), found), (poll(added(row())).rstrip("\n"), found),
                      ("\n" + poll(added(row())) + "\n\n", found), (poll(added(row(), namespace="x")), found), (poll(added(row(), more=[1])), found),
                      (poll(added(row()), more=None), found), (poll(added(*halves)), picked((8, "b", 2))),
                      (poll(added(row(tag="now"), row(host="g"))), found),
                      # A later event puts or removes the Table, and the first Table by name that has the host is picked from.
                      (poll(added(row()), added(row(revision="b", uid=2))), picked((8, "b", 2))),
                      (poll(added(row())) + poll(added(row(revision="b", uid=2)), version="2"), picked((8, "b", 2))),
                      (poll(added(row()), {"name": "t", "namespace": "default", "type": "DELETED"}), none),
                      (poll(added(row()), {"name": "t", "type": "DELETED"}), none), (poll(added(row()), {"name": "u", "type": "DELETED"}), found),
                      (poll(added(row(revision="b", uid=2), name="u"), added(row())), found),
                      (poll(added(row()), version="5") + poll(version="5"), found), (poll(version="0"), none), (poll(version="0000000000000000001"), none)):
        yield one, text, 0, out
    # What is refused: the whole run writes nothing, whatever was followed before.
    for text in ("x\n", "[]\n", "{}\n", poll(kind="TableList"), poll(version=""), poll(version="1x"), poll(version="-1"), poll(version="1" * 20),
                 poll(version=None), poll(1), poll({}), poll({"type": "ADDED"}), poll({"type": "GONE", "name": "t"}), poll({"type": "DELETED"}),
                 poll({"type": "DELETED", "name": ""}), poll(added()), poll(added(name="")), poll(added(row(), namespace="")), poll(added(row(tag="now"))),
                 poll(added(row(percent=99))), poll(added(row(percent=0), row(revision="b"))), poll(added(row(percent=101))), poll(added(row(percent="100"))),
                 poll(added(row(percent=50), row(percent=50))), poll(added(row(percent=50), row(percent=50, revision="b", host="g"))),
                 poll(added(row(), row(tag="now"))), poll(added(row(), row(tag="now", host="g", percent=99))),
                 poll(added(row(), row(tag="now", host="g"), row(tag="now", host="f"))), poll(added(row(host=""))), poll(added(row(revision=""))),
                 poll(added({**row(), "revisionUid": "1"})), poll(added(row())) + poll(version="0"), poll(added(row()), version="2") + "x"):
        yield one, text, 11, b""
    yield ["pick", "--host=x", "--first=4294967295", "--count=2"], poll(added(row())), 0, picked((4294967295, None, 0), (4294967296, None, 0))
    yield one, " " * 8388608 + "\n", 11, b""
    yield one, poll(added(row())) + " " * 8388609, 11, b""
    yield one, poll().rstrip("\n") + " " * (8388608 - len(poll()) + 1), 0, none
