# What the examples share: a server on a free port. Sourced by them; `program` is set before.

# Whether nothing answers on this port of the machine itself.
is_free() {
    ! (exec 3<>"/dev/tcp/127.0.0.1/$1") 2>/dev/null
}

# A free port is left in `port`.
find_port() {
    for _ in $(seq 100); do
        port=$((20000 + RANDOM % 20000))
        if is_free "$port"; then
            return
        fi
    done
    echo "no free port was found" >&2
    exit 1
}

# Whether something listens on the port. No connection is made, since each is one of those that the server counts.
is_listening() {
    grep -qi "^ *[0-9]*: 0100007F:$(printf '%04X' "$port") 00000000:0000 0A" /proc/net/tcp
}

# Starts a server with so many workers, of so many connections each, and waits until it listens. It is stopped when the example ends.
start_server() {
    # (builds the program where it isn't built)
    "$program" id 000000000000000000000000000000 >/dev/null || exit 1
    find_port
    echo "$ asp_state serve $port $1 $2"
    "$program" serve "$port" "$1" "$2" &
    server=$!
    trap '[ -z "$server" ] || kill "$server" 2>/dev/null' EXIT
    for _ in $(seq 100); do
        if is_listening; then
            return
        fi
        sleep 0.1
    done
    echo "the server doesn't listen" >&2
    exit 1
}

# Waits for the server's end, which comes after its last connection.
await_server() {
    wait "$server"
    local status=$?
    server=
    echo "$ the server ended with status $status"
    [ "$status" -eq 0 ] || exit 1
}
