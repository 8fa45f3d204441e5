#!/usr/bin/env python3
"""Python's http.client over one connection: a rollout, many requests, a stale replacement.

usage: tests/clients/http_client.py PROGRAM
"""
import sys
import time

from server import ROOT, Checks, ask, manifest, report, serving


def rollout(client, checks):
    """The automatic steps do the controllers' work behind each request."""
    before = int(time.time())
    code, made = ask(client, "POST", f"{ROOT}/services", manifest("Service", "hello"))
    checks.equal((code, made["metadata"]["generation"]), (201, 1), "a POST")
    checks.equal(ask(client, "GET", f"{ROOT}/revisions/hello-00001")[0], 200, "the Revision that the automatic steps made")
    checks.equal(ask(client, "POST", "/control/reports", report("hello-00001"))[1]["changed"], True, "a report")
    checks.equal(ask(client, "POST", "/control/settle")[0], 200, "a settle")
    tables = ask(client, "GET", "/control/tables")[1]["items"]
    checks.equal([row["percent"] for table in tables for row in table["rows"]], [100], "the rows of the Table")
    now = ask(client, "GET", "/control/summary")[1]["now"]
    checks.equal(before <= now <= time.time() + 1, True, "the moment is the system's")


def main(program):
    checks = Checks("http_client")
    with serving(program, "--sessions", "1") as server:
        client = server.client()
        rollout(client, checks)
        for place in range(100):
            checks.equal(ask(client, "POST", f"{ROOT}/configurations", manifest("Configuration", f"c{place}"))[0], 201, f"POST {place}")
        checks.equal(len(ask(client, "GET", f"{ROOT}/configurations")[1]["items"]), 101, "a list")
        code, found = ask(client, "GET", f"{ROOT}/configurations/c7")
        checks.equal(code, 200, "a GET")
        body = manifest("Configuration", "c7")
        body["metadata"]["resourceVersion"] = found["metadata"]["resourceVersion"]
        body["metadata"]["labels"] = {"a": "b"}
        checks.equal(ask(client, "PUT", f"{ROOT}/configurations/c7", body)[0], 200, "a replacement")
        checks.equal(ask(client, "PUT", f"{ROOT}/configurations/c7", {**body, "spec": manifest("Configuration", "x")["spec"] | {"template": {
            "spec": {"containers": [{"image": "other"}]}}}})[0], 409, "a stale replacement")
        checks.equal(ask(client, "PATCH", f"{ROOT}/configurations/c7", {"metadata": {"labels": {"a": None}}})[0], 200, "a patch")
        checks.equal(ask(client, "DELETE", f"{ROOT}/configurations/c7")[0], 200, "a removal")
        client.close()
        checks.equal(server.ended(), (0, ["connection 1: clean, 112 answered"]), "the end")
    return checks.end()


if __name__ == "__main__":
    sys.exit(main(sys.argv[1]))
