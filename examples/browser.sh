#!/usr/bin/env bash
# A browser's two requests before `asp_state gate`, with the session identifier in a cookie, and with it in the path. The second request
# says what the answer to the first one said. It ends with status 1 where an answer is another one.
# usage: examples/browser.sh. ASP_STATE names another program than ./asp_state.
set -u
top=$(cd "$(dirname "${BASH_SOURCE[0]}")/.." && pwd) || exit 1
program=${ASP_STATE:-$top/asp_state}

fail() {
    echo "browser: $1" >&2
    exit 1
}

# Sends a request of these lines, with this body, and prints it.
ask() {
    local body=$1 line
    shift
    for line in "$@" ""; do
        echo ">${line:+ $line}"
        printf '%s\r\n' "$line" >&"${gate[1]}" || fail "the gateway reads no more"
    done
    [ -z "$body" ] || echo "> $body"
    printf '%s' "$body" >&"${gate[1]}"
}

# Reads an answer and prints it: its status line, what it says of the session, and its body.
hear() {
    local line length=0
    status= cookie= location= body=
    IFS= read -r -t 60 -u "${gate[0]}" status || fail "no answer came"
    status=${status%$'\r'}
    echo "< $status"
    while IFS= read -r -t 60 -u "${gate[0]}" line; do
        line=${line%$'\r'}
        [ -n "$line" ] || break
        echo "< $line"
        case $line in
            Set-Cookie:*)
                cookie=${line#Set-Cookie: }
                cookie=${cookie%%;*}
                ;;
            Location:*) location=${line#Location: } ;;
            Content-Length:*) length=${line#Content-Length: } ;;
        esac
    done
    if [ "$length" -gt 0 ]; then
        IFS= read -r -t 60 -N "$length" -u "${gate[0]}" body || fail "the answer's body did not come"
        echo "< $body"
    fi
}

# Starts a gateway that finds identifiers so.
begin() {
    echo "\$ asp_state gate $1 0 1000"
    coproc gate { exec "$program" gate "$1" 0 1000; }
    pid=$gate_PID
}

# The browser is done: the gateway ends with its input.
end() {
    exec {gate[1]}>&-
    wait "$pid" || fail "the gateway ended with status $?"
}

begin cookie
ask cart=1 'POST /put HTTP/1.1' 'Content-Length: 6'
hear
[ "$status" = 'HTTP/1.1 200 OK' ] && [ -n "$cookie" ] || fail "no cookie came"
ask '' 'GET /get HTTP/1.1' "Cookie: $cookie"
hear
[ "$status" = 'HTTP/1.1 200 OK' ] && [ -z "$cookie" ] && [ "$body" = cart=1 ] || fail "the session was not found by its cookie"
end

begin url
ask '' 'GET /get HTTP/1.1'
hear
[ "$status" = 'HTTP/1.1 302 Found' ] && [ -n "$location" ] || fail "the browser was sent nowhere"
ask '' "GET $location HTTP/1.1"
hear
[ "$status" = 'HTTP/1.1 200 OK' ] && [ -z "$body" ] || fail "the path with an identifier has no page"
end
