#!/usr/bin/env bash
# Raw calls of kubectl: get, list, poll and delete.
# usage: tests/clients/kubectl.sh PROGRAM
set -u
program=$1
wrong=0
checks=0
port=$(python3 -c 'import socket; s = socket.socket(); s.bind(("127.0.0.1", 0)); print(s.getsockname()[1])')
"$program" serve --listen "127.0.0.1:$port" > /dev/null &
server=$!
trap 'kill "$server" 2> /dev/null' EXIT
services=/apis/serving.knative.dev/v1/namespaces/default/services
body='{"apiVersion":"serving.knative.dev/v1","kind":"Service","metadata":{"name":"hello"},"spec":{"template":{"spec":{"containers":[{"image":"img"}]}}}}'

# check WHAT DUE KUBECTL'S WORDS..: the output holds the text that is due. The server serves one connection at a time, and kubectl opens one each time.
check() {
  local what=$1 due=$2 found
  shift 2
  checks=$((checks + 1))
  found=$(timeout 60 kubectl --server "http://127.0.0.1:$port" "$@" 2>&1)
  case $found in
    *"$due"*) ;;
    *) wrong=$((wrong + 1)); echo "kubectl: $what: $found" ;;
  esac
}

# kubectl sends a raw body in chunks, which the server refuses, so the Service is made without it, once the server listens.
for _ in $(seq 100); do { exec 3<> "/dev/tcp/127.0.0.1/$port"; } 2> /dev/null && break; sleep 0.05; done
printf 'POST %s HTTP/1.0\r\nContent-Length: %s\r\n\r\n%s' "$services" "${#body}" "$body" >&3
cat <&3 > /dev/null
exec 3>&-
check "get" '"name":"hello"' get --raw "$services/hello"
check "list" '"kind":"ServiceList"' get --raw "$services"
check "poll" '"kind":"Poll"' get --raw "$services?watch=1&resourceVersion=0"
check "delete" '"status":"Success"' delete --raw "$services/hello"
check "get of what is gone" 'not found' get --raw "$services/hello"
echo "kubectl: $checks checks, $wrong wrong"
[ "$wrong" = 0 ]
