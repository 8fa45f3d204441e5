#!/usr/bin/env bash
# A rollout from end to end by curl.
# usage: tests/clients/curl.sh PROGRAM
set -u
program=$1
wrong=0
checks=0
port=$(python3 -c 'import socket; s = socket.socket(); s.bind(("127.0.0.1", 0)); print(s.getsockname()[1])')
"$program" serve --listen "127.0.0.1:$port" --auto 0 > /dev/null &
server=$!
trap 'kill "$server" 2> /dev/null' EXIT
base=http://127.0.0.1:$port
services=$base/apis/serving.knative.dev/v1/namespaces/default/services

# check WHAT DUE CURL'S WORDS..: the reply holds the text that is due.
check() {
  local what=$1 due=$2 found
  shift 2
  checks=$((checks + 1))
  found=$(curl -sS --retry 20 --retry-connrefused --retry-delay 1 -w ' %{http_code}' "$@")
  case $found in
    *"$due"*) ;;
    *) wrong=$((wrong + 1)); echo "curl: $what: $found" ;;
  esac
}

check "a Service is made" ' 201' -X POST "$services" -d '{"apiVersion":"serving.knative.dev/v1","kind":"Service","metadata":{"name":"hello"},"spec":{"template":{"spec":{"containers":[{"image":"img"}]}}}}'
check "a settle" '{"journal":8,"turns":4} 200' -X POST "$base/control/settle"
check "a report" '"changed":true' -X POST "$base/control/reports" -d '{"revisionName":"hello-00001","resourcesAvailable":{"status":"True"},"containerHealthy":{"status":"True"}}'
check "another settle" '{"journal":16,"turns":6} 200' -X POST "$base/control/settle"
check "the Service is ready" '"url":"http://hello.default.example.com"' "$services/hello"
check "the Table" '"percent":100,"revisionName":"hello-00001"' "$base/control/tables"
check "a poll" '"type":"MODIFIED"' "$services?watch=1&resourceVersion=1"
check "a removal" '"status":"Success"' -X DELETE "$services/hello"
check "it is gone" ' 404' "$services/hello"
echo "curl: $checks checks, $wrong wrong"
[ "$wrong" = 0 ]
