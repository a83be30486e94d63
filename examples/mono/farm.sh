#!/usr/bin/env bash
# Two web servers (nginx and Mono, a process each) over one `asp_state serve`: one session on both, pages that wait for each other,
# increments at once. It ends with status 1 where a page showed another number than is due.
# usage: examples/mono/farm.sh; it needs Debian's mono-fastcgi-server4, mono-mcs, nginx-light and curl. ASP_STATE names another program than
# ./asp_state. Outside the gate.
set -u
here=$(cd "$(dirname "${BASH_SOURCE[0]}")" && pwd) || exit 1
top=$(cd "$here/../.." && pwd) || exit 1
program=${ASP_STATE:-$top/asp_state}
. "$top/examples/server.sh"

work=$(mktemp -d) || exit 1
jar=$work/jar
failed=0
started=()

clean() {
    local process
    for process in "${started[@]}" ${server:-}; do
        kill "$process" 2>/dev/null
    done
    wait 2>/dev/null
    rm -rf "$work"
}

# A page of the web server 1 or 2, asked for by the browser of the jar.
page() {
    curl -s --max-time 120 -b "$jar" -c "$jar" "http://127.0.0.1:${web[$1]}/$2"
}

# Prints what was got, and notes where it isn't what is due.
expect() {
    echo "$1: $2"
    if [ "$2" != "$3" ]; then
        echo "farm: expected $3" >&2
        failed=1
    fi
}

now() {
    date +%s%3N
}

# Sets ports, builds the provider into a copy of the pages, and starts all.
start_all() {
    start_server 64 100000
    trap clean EXIT
    state=$port
    local k
    for k in 1 2; do
        find_port
        web[k]=$port
        find_port
        cgi[k]=$port
    done
    cp -r "$here/app" "$work/app"
    mkdir "$work/app/bin"
    sed -i "s/port=\"42424\"/port=\"$state\"/" "$work/app/web.config"
    mcs -target:library -r:System.Web.dll -r:System.Configuration.dll -out:"$work/app/bin/AspStateProvider.dll" \
        "$here/AspStateProvider.cs" || exit 1
    for k in 1 2; do
        (cd "$work/app" && MONO_THREADS_PER_CPU=50 exec fastcgi-mono-server4 "/applications=/:$work/app" \
            "/socket=tcp:127.0.0.1:${cgi[k]}") >"$work/mono$k.log" 2>&1 &
        started+=($!)
    done
    sed "s|@WORK@|$work|; s|@WEB1@|${web[1]}|; s|@WEB2@|${web[2]}|; s|@CGI1@|${cgi[1]}|; s|@CGI2@|${cgi[2]}|" \
        "$here/nginx.conf" >"$work/nginx.conf"
    nginx -c "$work/nginx.conf" 2>/dev/null &
    started+=($!)
    for k in 1 2; do
        for _ in $(seq 300); do
            [ "$(page "$k" none.aspx)" = "no session" ] && continue 2
            sleep 0.2
        done
        echo "farm: web server $k doesn't answer" >&2
        cat "$work/mono$k.log" >&2
        exit 1
    done
}

# A slow page on one server, and another page of the session on the other, 0.4 s later.
beside_a_slow_page() {
    local begun
    begun=$(now)
    page 1 "$1" >"$work/slow" &
    local slow=$!
    sleep 0.4
    beside=$(page 2 "$2")
    took=$(($(now) - begun))
    wait "$slow"
}

# 100 pages on each server, 20 at a time, by the one session.
increments() {
    local k running=()
    for k in 1 2; do
        seq 100 | xargs -P 20 -I{} curl -s --max-time 300 -o /dev/null -w '%{http_code}\n' -b "$jar" \
            "http://127.0.0.1:${web[k]}/inc.aspx" >"$work/statuses$k" &
        running+=($!)
    done
    wait "${running[@]}"
    cat "$work"/statuses? | sort | uniq -c | sed 's/^ *//'
}

PATH=$PATH:/usr/sbin
declare -a web cgi
start_all
echo "# One session on both web servers: each page adds one."
expect "server 1" "$(page 1 inc.aspx)" n=1
expect "server 2" "$(page 2 inc.aspx)" n=2
expect "server 2, read only" "$(page 2 read.aspx)" n=2
id=$(awk '/ASP.NET_SessionId/ { print $7 }' "$jar")
echo "asp_state has it under /shop/$id: $(curl -s -o /dev/null -w '%{http_code}, %{size_download} bytes' "http://127.0.0.1:$state/shop/$id")"

echo "# A page of two seconds on server 1, and a page on server 2 that waits for it."
beside_a_slow_page "inc.aspx?ms=2000" inc.aspx
expect "the slow page" "$(cat "$work/slow")" n=3
expect "the page that waited" "$beside" n=4
expect "it took two seconds or more" "$([ "$took" -ge 2000 ] && echo yes)" yes

echo "# Two read-only pages of two seconds: neither waits for the other."
beside_a_slow_page "read.aspx?ms=2000" "read.aspx?ms=2000"
expect "the second" "$beside" n=4
expect "both took less than four seconds" "$([ "$took" -lt 4000 ] && echo yes)" yes

echo "# 200 increments at once, 100 on each server, by their statuses."
begun=$(now)
expect "200 pages" "$(increments)" "200 200"
echo "they took $(($(now) - begun)) ms"
expect "then" "$(page 1 read.aspx)" n=204

echo "# A content of a megabyte, and one that is too long, which leaves the session as it was."
expect "a megabyte, by server 1" "$(page 1 "inc.aspx?pad=1000000")" n=205
expect "read by server 2" "$(page 2 read.aspx)" n=205
expect "too long: status" "$(curl -s -o /dev/null -w '%{http_code}' --max-time 120 -b "$jar" "http://127.0.0.1:${web[1]}/inc.aspx?pad=4200000")" 500
expect "then" "$(page 2 inc.aspx)" n=206

echo "# Abandoned on server 1, it begins anew on server 2."
page 1 abandon.aspx >/dev/null
expect "asp_state's status" "$(curl -s -o /dev/null -w '%{http_code}' "http://127.0.0.1:$state/shop/$id")" 404
expect "server 2" "$(page 2 inc.aspx)" n=1

echo "# The state server is killed, and started again: what it held is gone, and both web servers go on."
kill "$server"
wait "$server" 2>/dev/null
"$program" serve "$state" 64 100000 &
server=$!
port=$state
until is_listening; do sleep 0.1; done
expect "server 1" "$(page 1 inc.aspx)" n=1
expect "server 2" "$(page 2 inc.aspx)" n=2
exit "$failed"
