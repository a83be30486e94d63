#!/usr/bin/env bash
# Two pages of one session, each a process of its own: `asp_state visit` against `asp_state serve`. The first page is slow, since a relay
# holds its write back for two seconds; the second finds its lock in the way, waits, and gets the session when that lock is gone.
# It ends with status 1 where a page isn't done, or the second didn't wait.
# usage: examples/two-pages.sh; it needs curl and python3. ASP_STATE names another program than ./asp_state.
set -u
top=$(cd "$(dirname "${BASH_SOURCE[0]}")/.." && pwd) || exit 1
program=${ASP_STATE:-$top/asp_state}
. "$top/examples/server.sh"

# The session's key, `/shop/1`, as `visit` spells it.
key=x2f73686f702f31

fail() {
    echo "two-pages: $1" >&2
    exit 1
}

now() {
    date +%s%3N
}

# Relays one connection to the port, from a port of its own that it prints. It holds the second request back for two seconds, and prints
# `held` when it begins to.
relay() {
    python3 -u - "$port" <<'RELAY'
import socket, sys, threading, time

listener = socket.create_server(("127.0.0.1", 0))
print(listener.getsockname()[1])
client, _ = listener.accept()
server = socket.create_connection(("127.0.0.1", int(sys.argv[1])))

def answers():
    while piece := server.recv(65536):
        client.sendall(piece)

threading.Thread(target=answers, daemon=True).start()
requests = 0
while piece := client.recv(65536):
    requests += 1
    if requests == 2:
        print("held")
        time.sleep(2)
    server.sendall(piece)
RELAY
}

# Makes a visit by the port and the words behind it, and prints its outcome with the milliseconds since `begun`.
page() {
    local name=$1 outcome status
    shift
    echo "$(($(now) - begun)) ms: page $name begins: asp_state visit $*"
    outcome=$("$program" visit "$@")
    status=$?
    echo "$(($(now) - begun)) ms: page $name ended: $outcome, status $status"
    return "$status"
}

start_server 2 2
begun=$(now)
page 0 "$port" "$key" exclusive save 20 x30 || fail "the session was not made"

exec 3< <(relay)
read -r slow <&3 || fail "there is no relay"
page 1 "$slow" "$key" exclusive save 20 x31 &
first=$!
read -r held <&3 && [ "$held" = held ] || fail "the first page sent no write"
second_begun=$(now)
page 2 "$port" "$key" exclusive save 20 x32 &
second=$!
wait "$first" || fail "the first page isn't done"
wait "$second" || fail "the second page isn't done"
waited=$(($(now) - second_begun))
[ "$waited" -ge 1000 ] || fail "the second page did not wait"

content=$(curl -s --max-time 10 "http://127.0.0.1:$port/shop/1")
echo "The second page took $waited ms, and what it wrote came last: the session's content is $content."
[ "$content" = 2 ] || fail "the session has another content"
await_server
