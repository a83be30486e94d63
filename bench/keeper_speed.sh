#!/usr/bin/env bash
# The calls of the keeper over a database, in memory and on a file, beside Python's sqlite3 on the same statements, in one run.
# It needs `rt` and Python 3, and proves and builds a program over the keeper in a folder of its own.
# usage: bench/keeper_speed.sh [ROUNDS]; it prints the median of the rounds, 3 unless given, for 100 and 100,000 rows.
set -euo pipefail
rounds=${1:-3}
here=$(cd "$(dirname "$0")" && pwd)
work=$(mktemp -d)
trap 'rm -rf "$work"' EXIT

# The keeper's crate and each crate below it.
needed=$(awk -F: '
    { split($1, head, " "); below[head[1]] = $2 }
    function take(name,    deps, n, k) {
        if (!(name in below) || name in taken) return
        taken[name] = 1
        n = split(below[name], deps, " ")
        for (k = 1; k <= n; k++) take(deps[k])
        print name
    }
    END { take("sqlite_keeper") }' "$here/../crates.txt")
mkdir -p "$work/crates/keeper_bench/src" "$work/crates/keeper_bench/specs" "$work/crates/keeper_bench/proofs"
cp "$here/../HANDLES" "$work/"
for crate in $needed; do
    mkdir "$work/crates/$crate"
    cp -r "$here/../crates/$crate/src" "$here/../crates/$crate/specs" "$here/../crates/$crate/proofs" "$work/crates/$crate/"
    grep -E "^$crate[: ]" "$here/../crates.txt" >>"$work/crates.txt"
done
echo 'keeper_bench: anyhow asp_base asp_messages keeper session_machine sqlite sqlite_keeper' >>"$work/crates.txt"

cd "$work/crates/keeper_bench"
touch specs/Lib.antt proofs/Lib.antt
cat >src/main.rt <<'PROGRAM'
//! Times the calls of a keeper over a database: `PATH ROWS CALLS`, where PATH is `-` for memory. It prints what was timed, how often, and
//! the nanoseconds.
#![tactic(auto)]
ghost use Rattle.std.specs.Prelude.{◌<◌, ◌≤◌, IfOk};
ghost use Rattle.asp_messages.specs.Ranges.{KeyFits};
ghost use Rattle.session_machine.specs.Liveness.{ItemFits};

use anyhow::anyhow;
use asp_base::Bytes;
use keeper::{KeepError, Keeper};
use session_machine::Item;
use sqlite::{Alter, Connection, File, FileStore};
use sqlite_keeper::SqliteKeeper;
use std::alloc::Global;
use std::env;
use std::time::Instant;

const BODY: [u8; 100] = [7; 100];

fn key(alloc: Global, n: u64) -> Result<Bytes, KeepError>
    ensures { IfOk result KeyFits }
{
    let digits = (n.wrapping_mul(11_400_714_819_323_198_485)).to_be_bytes();
    Ok(Bytes::copy(alloc, &digits)?)
}

fn item(alloc: Global, touched: u64) -> Result<Item, KeepError>
    requires { touched < 1000000000 }
    ensures { IfOk result ItemFits }
{
    Ok(Item {
        body: Bytes::copy(alloc, &BODY)?,
        minutes: 20,
        fresh: false,
        holder: None,
        touched,
        ends: (1 << 63) - 1,
    })
}

fn tell(rt: &HostRuntime, what: &str, count: u64, start: &Instant) -> Result<(), anyhow::Error> {
    let nanos = start.elapsed(rt)?.as_nanos();
    println!(rt; "{what} {count} {nanos}")?;
    Ok(())
}

fn put<K: Keeper>(alloc: Global, keeper: &mut K, n: u64) -> Result<(), anyhow::Error> {
    let item = item(alloc, n % 1_000_000)?;
    keeper.put(&key(alloc, n)?, item)?;
    Ok(())
}

fn get<K: Keeper>(alloc: Global, keeper: &mut K, n: u64) -> Result<bool, anyhow::Error> {
    Ok(keeper.get(&key(alloc, n)?)?.is_some())
}

fn puts<K: Keeper>(alloc: Global, keeper: &mut K, count: u64) -> Result<(), anyhow::Error> {
    for n in 0..count {
        put(alloc, keeper, n)?;
    }
    Ok(())
}

fn gets<K: Keeper>(
    alloc: Global,
    keeper: &mut K,
    rows: u64,
    count: u64,
) -> Result<(), anyhow::Error> {
    for n in 0..count {
        if !get(alloc, keeper, n.checked_rem(rows).unwrap_or(0))? {
            return Err(anyhow!("missing"));
        }
    }
    Ok(())
}

fn dues<K: Keeper>(keeper: &mut K, t: u64, count: u64) -> Result<u64, anyhow::Error> {
    let mut found = 0u64;
    for _ in 0..count {
        if keeper.due(t)?.is_some() {
            found = found.saturating_add(1);
        }
    }
    Ok(found)
}

fn timed<K: Keeper>(
    rt: &HostRuntime,
    keeper: &mut K,
    rows: u64,
    calls: u64,
) -> Result<(), anyhow::Error> {
    let start = Instant::now(rt)?;
    gets(rt.alloc(), keeper, rows, calls)?;
    tell(rt, "get", calls, &start)?;
    let start = Instant::now(rt)?;
    let there = calls.min(rows);
    puts(rt.alloc(), keeper, there)?;
    tell(rt, "put", there, &start)
}

fn looks<K: Keeper>(rt: &HostRuntime, keeper: &mut K, calls: u64) -> Result<(), anyhow::Error> {
    let start = Instant::now(rt)?;
    dues(keeper, 0, calls)?;
    tell(rt, "due-none", calls, &start)?;
    let start = Instant::now(rt)?;
    dues(keeper, 1_000_000_000, calls)?;
    tell(rt, "due-all", calls, &start)
}

fn kept<S: Alter + Drop>(
    alloc: Global,
    connection: Connection<S>,
) -> Result<SqliteKeeper<S>, anyhow::Error> {
    Ok(SqliteKeeper::over(alloc, connection)?)
}

/// The same connection, behind this statement.
fn said<S: Alter + Drop>(
    alloc: Global,
    mut connection: Connection<S>,
    sql: &str,
) -> Result<SqliteKeeper<S>, anyhow::Error> {
    connection.execute(sql, &[])?;
    kept(alloc, connection)
}

fn run<S: Alter + Drop>(
    rt: &HostRuntime,
    connection: Connection<S>,
    rows: u64,
    calls: u64,
) -> Result<Connection<S>, anyhow::Error> {
    let keeper = kept(rt.alloc(), connection)?;
    let mut keeper = said(rt.alloc(), keeper.into_connection(), "BEGIN")?;
    puts(rt.alloc(), &mut keeper, rows)?;
    let mut keeper = said(rt.alloc(), keeper.into_connection(), "COMMIT")?;
    timed(rt, &mut keeper, rows, calls)?;
    looks(rt, &mut keeper, calls)?;
    Ok(keeper.into_connection())
}

fn in_memory(rt: &HostRuntime, rows: u64, calls: u64) -> Result<(), anyhow::Error> {
    let connection = Connection::open_in_memory(rt.alloc())?;
    run(rt, connection, rows, calls)?;
    Ok(())
}

fn opened(rt: &HostRuntime, path: &str) -> Result<SqliteKeeper<FileStore<File>>, anyhow::Error> {
    let connection = Connection::open(rt, path)?;
    kept(rt.alloc(), connection)
}

fn in_file(rt: &HostRuntime, path: &str, rows: u64, calls: u64) -> Result<(), anyhow::Error> {
    let connection = Connection::open(rt, path)?;
    let connection = run(rt, connection, rows, calls)?;
    connection.close()?;
    let start = Instant::now(rt)?;
    let keeper = opened(rt, path)?;
    tell(rt, "open", 1, &start)?;
    keeper.into_connection().close()?;
    Ok(())
}

fn words(rt: &HostRuntime) -> Result<Vec<String>, anyhow::Error> {
    let mut words = Vec::new(rt.alloc());
    for word in env::args(rt)? {
        words.push(word)?;
    }
    Ok(words)
}

fn main(rt: HostRuntime) -> Result<(), anyhow::Error> {
    let words = words(&rt)?;
    let [_, path, rows, calls] = words.as_slice() else {
        return Err(anyhow!("PATH ROWS CALLS"));
    };
    let rows: u64 = rows.as_str().parse()?;
    let calls: u64 = calls.as_str().parse()?;
    if path.as_str() == "-" {
        in_memory(&rt, rows, calls)
    } else {
        in_file(&rt, path.as_str(), rows, calls)
    }
}
PROGRAM
printf -- '-\n10\n10\n' >args
cat >"$work/module.py" <<'MODULE'
"""The same calls by Python's sqlite3 module: PATH ROWS CALLS, where PATH is `-` for memory."""
import sqlite3
import sys
import time

path, rows, calls = sys.argv[1], int(sys.argv[2]), int(sys.argv[3])
BODY = bytes([7]) * 100
COLUMNS = "key, body, minutes, fresh, cookie, since, touched, ends, expiry"
PUT = "INSERT INTO items2 (%s) VALUES (?1, ?2, ?3, ?4, ?5, ?6, ?7, ?8, ?9) ON CONFLICT (key) DO UPDATE SET %s" % (
    COLUMNS, ", ".join("%s = excluded.%s" % (name, name) for name in COLUMNS.split(", ")[1:]))
GET = "SELECT %s FROM items2 WHERE key = ?1" % COLUMNS.partition(", ")[2]
DUE = "SELECT key FROM items2 WHERE expiry <= ?1 ORDER BY expiry, key LIMIT 1"


def key(n):
    return (n * 11400714819323198485 % 2**64).to_bytes(8, "big")


def columns(n):
    return key(n), BODY, 20, 0, 0, 0, n % 1_000_000, 2**63 - 1, n % 1_000_000 + 1_200_000


def timed(what, count, call):
    start = time.perf_counter_ns()
    for n in range(count):
        call(n)
    print(what, count, time.perf_counter_ns() - start)


def put(n):
    connection.execute(GET, (key(n),)).fetchone()
    connection.execute(PUT, columns(n))


connection = sqlite3.connect(":memory:" if path == "-" else path, isolation_level=None)
if path != "-":
    connection.execute("PRAGMA journal_mode = wal")
connection.execute("CREATE TABLE items2 (key BLOB PRIMARY KEY, body BLOB NOT NULL, minutes INTEGER NOT NULL, fresh INTEGER NOT NULL, "
                   "cookie INTEGER NOT NULL, since INTEGER NOT NULL, touched INTEGER NOT NULL, ends INTEGER NOT NULL, expiry INTEGER NOT NULL)")
connection.execute("CREATE INDEX items2_by_expiry ON items2 (expiry, key)")
connection.execute("BEGIN")
connection.executemany(PUT, (columns(n) for n in range(rows)))
connection.execute("COMMIT")
timed("get", calls, lambda n: connection.execute(GET, (key(n % rows),)).fetchone())
timed("put", min(calls, rows), put)
timed("due-none", calls, lambda n: connection.execute(DUE, (0,)).fetchone())
timed("due-all", calls, lambda n: connection.execute(DUE, (1_000_000_000,)).fetchone())
connection.close()
if path != "-":
    start = time.perf_counter_ns()
    connection = sqlite3.connect(path)
    connection.execute("SELECT count(*) FROM items2").fetchone()
    print("open", 1, time.perf_counter_ns() - start)
MODULE

echo 'proving and building ..' >&2
rt run >build.log 2>&1 || [ -x out/keeper_bench ] || { cat build.log >&2; exit 1; }

# the median of a call's microseconds, of the lines of its rounds
median() {
    awk -v what="$2" '$1 == what { printf "%.1f\n", $3 / $2 / 1000 }' "$1" | sort -n | awk '{ all[NR] = $1 } END { print all[int((NR + 1) / 2)] }'
}
echo "processors: $(nproc), rounds: $rounds, microseconds a call"
for rows in 100 100000; do
    for place in memory file; do
        rm -f ours.txt theirs.txt
        for _ in $(seq "$rounds"); do
            path=-
            [ "$place" = memory ] || path=$work/ours.db
            rm -f "$work"/*.db*
            ./out/keeper_bench "$path" "$rows" 2000 >>ours.txt
            [ "$place" = memory ] || path=$work/theirs.db
            python3 "$work/module.py" "$path" "$rows" 2000 >>theirs.txt
        done
        for what in get put due-none due-all open; do
            [ "$what/$place" = open/memory ] && continue
            printf '%7d rows in %-6s  %-8s  keeper %10s  sqlite3 %10s\n' "$rows" "a $place" "$what" "$(median ours.txt "$what")" "$(median theirs.txt "$what")"
        done
    done
done
