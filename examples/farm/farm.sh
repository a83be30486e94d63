#!/usr/bin/env bash
# A farm: three `asp_state serve`, and two fronts before them. Front 1 is HAProxy, for web servers on its own machine; front 2 is another
# HAProxy, which a web server on another machine reaches by TLS, through stunnel at both ends. They know nothing of each other: the
# identifier of a session says which server has it. Shown is that each session stays on its server by either front, that a lock holds
# against both, and that a server which dies takes its own sessions alone with it. It ends with status 1 if anything else comes.
# usage: examples/farm/farm.sh, once `./asp_state --build` was run; it needs curl, and Debian's haproxy and stunnel4. ASP_STATE names
# another program than crates/asp_state/out/asp_state. The configurations beside it are those of packaging; it puts free ports into them.
# Outside the gate.
set -u
top=$(cd "$(dirname "${BASH_SOURCE[0]}")/../.." && pwd) || exit 1
# (The program and not the script that runs it, since a server is killed here.)
program=${ASP_STATE:-$top/crates/asp_state/out/asp_state}
. "$top/examples/server.sh"

sessions=40
failed=0
declare -a server front started ids home

stop() {
    echo "farm: $1" >&2
    exit 1
}

clean() {
    local process
    for process in "${started[@]}" "${server[@]}"; do
        kill "$process" 2>/dev/null
    done
    wait 2>/dev/null
    rm -rf "$work"
}

# Prints what was got, and notes if it isn't what is due.
expect() {
    echo "$1: $2"
    if [ "$2" != "$3" ]; then
        echo "farm: expected $3" >&2
        failed=1
    fi
}

# Waits until something listens on the port.
await_port() {
    port=$1
    for _ in $(seq 100); do
        is_listening && return
        sleep 0.1
    done
    cat "$work"/*.log >&2
    stop "nothing listens on port $port"
}

# Different free ports, as many as are asked for, are left in `ports`.
find_ports() {
    ports=()
    while [ "${#ports[@]}" -lt "$1" ]; do
        find_port
        [[ " ${ports[*]} " == *" $port "* ]] || ports+=("$port")
    done
}

# Server 1, 2 or 3.
serve() {
    echo "$ asp_state serve ${ports[$1]} 64 1000000"
    "$program" serve "${ports[$1]}" 64 1000000 &
    server[$1]=$!
    await_port "${ports[$1]}"
}

# HAProxy on a port. Two fronts share the connections that one may have.
proxy() {
    local k words=(-e "s/bind 127.0.0.1:42424/bind 127.0.0.1:$1/")
    for k in 1 2 3; do
        words+=(-e "s/127.0.0.1:4243$k/127.0.0.1:${ports[$k]}/")
    done
    words+=(-e "s/maxconn 48 pool-max-conn 48/maxconn 24 pool-max-conn 24/")
    sed "${words[@]}" "$top/packaging/haproxy.cfg" >"$work/haproxy-$1.cfg"
    haproxy -db -f "$work/haproxy-$1.cfg" >"$work/haproxy-$1.log" 2>&1 &
    started+=($!)
    await_port "$1"
}

# stunnel with one of its two configurations: the port that it takes, and the one that it leads to.
tunnel() {
    sed -e "s/^accept = .*/accept = 127.0.0.1:$2/" -e "s/^connect = .*/connect = 127.0.0.1:$3/" \
        -e "s|^PSKsecrets = .*|PSKsecrets = $work/keys|" "$top/packaging/$1" >"$work/$1"
    stunnel "$work/$1" >"$work/$1.log" 2>&1 &
    started+=($!)
    await_port "$2"
}

start_all() {
    local k
    find_ports 7
    ports=(0 "${ports[@]}")
    for k in 1 2 3; do
        serve "$k"
    done
    front=(0 "${ports[4]}" "${ports[7]}")
    proxy "${ports[4]}"
    proxy "${ports[5]}"
    (umask 077 && echo "web1:$(od -An -N32 -tx1 /dev/urandom | tr -d ' \n')" >"$work/keys")
    tunnel stunnel-state.conf "${ports[6]}" "${ports[5]}"
    tunnel stunnel-web.conf "${ports[7]}" "${ports[6]}"
}

# Asks METHOD KEY at a port, with what curl is told besides. The reply is left in `status`, `cookie` and `content`; the status is 000 if the
# connection ended without one.
ask() {
    local at=$1 method=$2 key=$3
    shift 3
    status=$(curl -s --max-time 20 -X "$method" "$@" -D "$work/head" -o "$work/content" -w '%{http_code}' "http://127.0.0.1:$at$key")
    cookie=$(tr -d '\r' <"$work/head" | sed -n 's/^LockCookie: //p')
    content=
    [ ! -s "$work/content" ] || content=$(cat "$work/content")
    : >"$work/content"
}

one_session() {
    local key=/shop/${ids[0]}
    echo "# One session by both fronts. Its lock holds against either."
    ask "${front[1]}" PUT "$key" -H 'Timeout: 20' --data-binary cart=1
    expect "written by front 1" "$status" 200
    ask "${front[1]}" GET "$key" -H 'Exclusive: acquire'
    expect "acquired by front 1" "$status $content" "200 cart=1"
    local lock=$cookie
    ask "${front[2]}" GET "$key" -H 'Exclusive: acquire'
    expect "a second lock by front 2" "$status" 423
    expect "it is told the cookie of the first" "$([ "$cookie" = "$lock" ] && echo yes)" yes
    ask "${front[1]}" GET "$key" -H 'Exclusive: acquire'
    expect "and by front 1" "$status" 423
    ask "${front[2]}" PUT "$key" --data-binary cart=9
    expect "written by front 2, without the cookie" "$status" 423
    ask "${front[2]}" PUT "$key" -H "LockCookie: $lock" --data-binary cart=2
    expect "written by front 2, naming the cookie" "$status" 200
    ask "${front[1]}" GET "$key"
    expect "read by front 1" "$status $content" "200 cart=2"
}

# What ASP.NET's own client sends and asks for, and what must not come through.
other_clients() {
    local key=/shop/${ids[0]} line
    echo "# What HAProxy is told for ASP.NET's own client, and a chunked write, which it refuses."
    exec 3<>"/dev/tcp/127.0.0.1/${front[1]}"
    printf 'GET %%2fshop%%2f%s HTTP/1.1\r\nHost: state\r\n\r\n' "${ids[0]}" >&3
    read -r -t 10 line <&3
    exec 3>&-
    expect "a target with its slashes encoded" "${line%$'\r'}" "HTTP/1.1 200 OK"
    ask "${front[1]}" GET "$key"
    expect "the field for its version" "$(grep -i '^x-aspnet-version' "$work/head" | tr -d '\r')" "X-AspNet-Version: 4.0.30319"
    ask "${front[1]}" PUT "$key" -H 'Transfer-Encoding: chunked' --data-binary cart=9
    expect "a chunked write" "$status" 411
    ask "${front[1]}" GET "$key"
    expect "then" "$content" cart=2
}

# Which servers have a session, by asking each itself.
servers_of() {
    local k found=
    for k in 1 2 3; do
        ask "${ports[$k]}" GET "$1"
        [ "$status" != 200 ] || found+=$k
    done
    echo "$found"
}

many_sessions() {
    local k alone=0 read_back=0
    local -a count=(0 0 0 0)
    echo "# $sessions sessions, written by the fronts in turn. Each is on one server, and read by the other front."
    for k in $(seq "$sessions"); do
        ask "${front[1 + k % 2]}" PUT "/shop/${ids[$k]}" --data-binary "cart=$k"
        ask "${front[2 - k % 2]}" GET "/shop/${ids[$k]}"
        [ "$status $content" != "200 cart=$k" ] || read_back=$((read_back + 1))
        home[k]=$(servers_of "/shop/${ids[$k]}")
        [ "${#home[$k]}" -ne 1 ] || alone=$((alone + 1)) count[${home[$k]}]=$((count[${home[$k]}] + 1))
    done
    expect "on one server alone" "$alone" "$sessions"
    expect "read by the other front" "$read_back" "$sessions"
    echo "server 1 has ${count[1]}, server 2 has ${count[2]}, server 3 has ${count[3]}"
    if [ "${count[1]}" -eq 0 ] || [ "${count[2]}" -eq 0 ] || [ "${count[3]}" -eq 0 ]; then
        stop "a server has none"
    fi
}

# Asks a front for a session until it answers so. Until it has noticed that a server died, or came, no reply or the one before may come.
await_status() {
    local due=$1 before=$2 at=$3 key=$4
    for _ in $(seq 100); do
        ask "$at" GET "$key"
        [ "$status" != "$due" ] || return
        [ "$status" = 000 ] || [ "$status" = "$before" ] || stop "$key was answered $status"
        sleep 0.1
    done
    stop "$key was answered $status for ten seconds, and not $due"
}

a_server_dies() {
    local k by gone=0 kept=0 own=0 lost=
    echo "# Server 2 is killed. Its sessions are gone, and the others are as they were, by either front."
    kill -9 "${server[2]}"
    wait "${server[2]}" 2>/dev/null
    for k in $(seq "$sessions"); do
        [ "${home[$k]}" != 2 ] || lost=$k own=$((own + 1))
    done
    for by in 1 2; do
        await_status 404 000 "${front[$by]}" "/shop/${ids[$lost]}"
        for k in $(seq "$sessions"); do
            ask "${front[$by]}" GET "/shop/${ids[$k]}"
            case ${home[$k]}:$status:$content in
                2:404:) gone=$((gone + 1)) ;;
                [13]:200:cart=$k) kept=$((kept + 1)) ;;
            esac
        done
        expect "by front $by, gone" "$gone" "$own"
        expect "by front $by, as they were" "$kept" "$((sessions - own))"
        gone=0 kept=0
    done
    echo "# A user of server 2 begins anew on another, and once more when it is back, empty."
    ask "${front[1]}" PUT "/shop/${ids[$lost]}" --data-binary anew
    ask "${front[2]}" GET "/shop/${ids[$lost]}"
    expect "written by front 1, read by front 2" "$status $content" "200 anew"
    serve 2
    for by in 1 2; do
        await_status 404 200 "${front[$by]}" "/shop/${ids[$lost]}"
        expect "then by front $by" "$status" 404
    done
}

PATH=$PATH:/usr/sbin
[ -x "$program" ] || stop "there is no program at $program: run ./asp_state --build first, at the top of the clone"
for command in curl haproxy stunnel; do
    command -v "$command" >/dev/null || stop "there is no $command: apt-get install curl haproxy stunnel4"
done
work=$(mktemp -d) || exit 1
trap clean EXIT
trap 'exit 1' INT TERM HUP
for k in $(seq 0 "$sessions"); do
    ids[k]=$("$program" id "$(echo "$k" | sha256sum | cut -c1-30)") || stop "no identifier was made"
done
start_all
one_session
other_clients
many_sessions
a_server_dies
[ "$failed" -ne 0 ] || echo "All is as it should be."
exit "$failed"
