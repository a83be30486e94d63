#!/usr/bin/env bash
# One session over HTTP: starts `asp_state serve` on a free port, asks it by curl, and prints what is sent and what comes back.
# It ends with status 1 where an answer isn't the one that is expected, or the server ends with another status than 0.
# usage: examples/session-over-http.sh; it needs curl. ASP_STATE names another program than ./asp_state.
set -u
top=$(cd "$(dirname "${BASH_SOURCE[0]}")/.." && pwd) || exit 1
program=${ASP_STATE:-$top/asp_state}
. "$top/examples/server.sh"

# Sends METHOD /shop/1 with the fields and options given, and prints both ways. The answer is left in `answer`.
ask() {
    local method=$1 shown=() word
    shift
    for word in "$@"; do
        case $word in
            -H) ;;
            --data-binary) shown+=("| content:") ;;
            *) shown+=("$word") ;;
        esac
    done
    echo "> $method /shop/1 ${shown[*]}"
    answer=$(curl -s -i --max-time 10 -X "$method" "$@" "http://127.0.0.1:$port/shop/1" | tr -d '\r')
    echo "$answer" | sed '/^$/d; s/^/< /'
}

# The answer has each of these lines.
expect() {
    local line
    for line in "$@"; do
        if ! grep -qxF -- "$line" <<<"$answer"; then
            echo "session-over-http: expected the line '$line'" >&2
            exit 1
        fi
    done
}

# Milliseconds since 1970.
now() {
    date +%s%3N
}

# The answer tells that the lock was acquired between these two moments.
expect_date() {
    local date
    date=$(sed -n 's/^LockDate: //p' <<<"$answer")
    if [ -z "$date" ] || [ "$date" -lt "$1" ] || [ "$date" -gt "$2" ]; then
        echo "session-over-http: expected a LockDate from $1 to $2" >&2
        exit 1
    fi
}

start_server 2 4

echo "# The session is written, and read."
ask PUT -H 'Timeout: 20' --data-binary 'cart=1'
expect 'HTTP/1.1 200 OK'
ask GET
expect 'HTTP/1.1 200 OK' 'Timeout: 20' 'cart=1'

echo "# A page acquires it, and gets the cookie of its lock."
before=$(now)
ask GET -H 'Exclusive: acquire'
after=$(now)
expect 'HTTP/1.1 200 OK' 'cart=1'
cookie=$(sed -n 's/^LockCookie: //p' <<<"$answer")

echo "# Another page is answered 423 with that cookie, the lock's age and its date, and so is a write without the cookie."
ask GET -H 'Exclusive: acquire'
expect 'HTTP/1.1 423 Locked' "LockCookie: $cookie"
expect_date "$before" "$after"
ask PUT --data-binary 'cart=9'
expect 'HTTP/1.1 423 Locked' "LockCookie: $cookie"
expect_date "$before" "$after"

echo "# The first page's write names the cookie, and ends the lock."
ask PUT -H "LockCookie: $cookie" --data-binary 'cart=2'
expect 'HTTP/1.1 200 OK'
ask GET
expect 'HTTP/1.1 200 OK' 'cart=2'

echo "# The session is removed. That was the last of two times four connections, so the server ends."
ask DELETE
expect 'HTTP/1.1 200 OK'
await_server
