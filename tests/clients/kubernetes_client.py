"""Kubernetes' Python client: the calls of CustomObjectsApi on Services.

usage: kubernetes_client.py PROGRAM, with a Python that has the module kubernetes
"""
import sys

from kubernetes import client
from kubernetes.client.rest import ApiException

from server import Checks, manifest, serving

PLACE = ("serving.knative.dev", "v1", "default", "services")


def main(program):
    checks = Checks("kubernetes_client")
    with serving(program) as server:
        server.connect().close()
        settings = client.Configuration(host=f"http://127.0.0.1:{server.port}")
        api = client.CustomObjectsApi(client.ApiClient(settings))
        made = api.create_namespaced_custom_object(*PLACE, manifest("Service", "hello"))
        checks.equal(made["metadata"]["generation"], 1, "create")
        found = api.get_namespaced_custom_object(*PLACE, "hello")
        checks.equal(found["metadata"]["uid"], made["metadata"]["uid"], "get")
        checks.equal([o["metadata"]["name"] for o in api.list_namespaced_custom_object(*PLACE)["items"]], ["hello"], "list")
        old = dict(manifest("Service", "hello"), metadata={"name": "hello", "resourceVersion": made["metadata"]["resourceVersion"]})
        new = dict(old, metadata=dict(old["metadata"], resourceVersion=found["metadata"]["resourceVersion"], labels={"a": "b"}))
        changed = api.replace_namespaced_custom_object(*PLACE, "hello", new)
        checks.equal(changed["metadata"]["labels"], {"a": "b"}, "replace")
        try:
            api.replace_namespaced_custom_object(*PLACE, "hello", dict(old, metadata=dict(old["metadata"], labels={"c": "d"})))
            checks.equal("taken", "refused", "a stale replace")
        except ApiException as refused:
            checks.equal(refused.status, 409, "a stale replace")
        patched = api.patch_namespaced_custom_object(*PLACE, "hello", {"metadata": {"labels": {"a": "z"}}})
        checks.equal(patched["metadata"]["labels"], {"a": "z"}, "patch")
        gone = api.delete_namespaced_custom_object(*PLACE, "hello")
        checks.equal(gone["status"], "Success", "delete")
        try:
            api.get_namespaced_custom_object(*PLACE, "hello")
            checks.equal("found", "gone", "get of what is gone")
        except ApiException as refused:
            checks.equal(refused.status, 404, "get of what is gone")
    return checks.end()


if __name__ == "__main__":
    sys.exit(main(sys.argv[1]))
