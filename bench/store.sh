#!/usr/bin/env bash
# Requests a second of 1, 2, 4 and 8 threads on a store of 8 shards, on eight keys of eight shards and on one key: the shared store,
# beside std's Mutex and a hash map for each shard in plain Rust, in one run. Each thread writes and reads 1,024 bytes by turns.
# It needs `rt` and `rustc`, and proves and builds a program over the store in a folder of its own.
# usage: bench/store.sh [ROUNDS]; it prints the median of the rounds, 5 unless given.
set -euo pipefail
rounds=${1:-5}
here=$(cd "$(dirname "$0")" && pwd)
work=$(mktemp -d)
trap 'rm -rf "$work"' EXIT

crates="asp_base asp_messages session_machine lock_laws keeper shard_core cookie_source turnstile state_store"
mkdir -p "$work/crates/store_bench/src" "$work/crates/store_bench/specs" "$work/crates/store_bench/proofs"
cp "$here/../HANDLES" "$work/"
for crate in $crates; do
    mkdir "$work/crates/$crate"
    cp -r "$here/../crates/$crate/src" "$here/../crates/$crate/specs" "$here/../crates/$crate/proofs" "$work/crates/$crate/"
done
grep -E "^(${crates// /|})\b" "$here/../crates.txt" >"$work/crates.txt"
echo 'store_bench may_wait=2: anyhow asp_base asp_messages keeper state_store' >>"$work/crates.txt"

cd "$work/crates/store_bench"
touch specs/Lib.antt proofs/Lib.antt
cat >src/main.rt <<'PROGRAM'
//! Asks a store in 1, 2, 4 and 8 threads, and prints for each the number of keys, the threads, the requests of all and the nanoseconds.
#![tactic(auto)]
ghost use Rattle.std.specs.Prelude.{◌≡◌, ◌<◌, ◌≤◌, ◌+◌, ◌^◌, [], All, length, IfOk};
ghost use Rattle.asp_messages.specs.Ranges.{RequestFits};
ghost use Rattle.state_store.specs.Passes.{IsPassOf, IsRollOf, passes_of};

use asp_base::{Bytes, NoMemory, OpenGate};
use asp_messages::{Ask, Request};
use keeper::ListKeeper;
use state_store::{FreshStore, Pass, Roll, Store};
use std::alloc::{AllocError, Global};
use std::sync::Wait;
use std::thread::{Threads, map_vec};
use std::time::Instant;

const REQUESTS: u64 = 200_000;

const SHARDS: u64 = 8;

/// A write or a read, by turns, of the key with this number.
fn request(alloc: Global, turn: u64, key: u8) -> Result<Request, NoMemory>
    ensures { IfOk result RequestFits }
{
    let key = Bytes::copy(alloc, &[b'/', b'a', key])?;
    let ask = if turn % 2 == 0 {
        Ask::Write {
            body: Bytes::copy(alloc, &[b'x'; 1024])?,
            minutes: 20,
            fresh: false,
            cookie: None,
        }
    } else {
        Ask::Read
    };
    Ok(Request { key, ask })
}

fn ask_often<R: Wait>(
    rt: &R,
    alloc: Global,
    store: &Store<ListKeeper>,
    mut pass: Pass<ListKeeper>,
    count: u64,
    keys: u8,
) -> Result<(), NoMemory>
    requires pass { IsPassOf store.now pass }
    requires keys { 1 ≤ keys }
{
    let mut key: u8 = 0;
    for turn in 0..count {
        store.ask(rt, &mut pass, request(alloc, turn / u64::from(keys), key)?, 0, &OpenGate);
        key = (key + 1) % keys;
    }
    Ok(())
}

fn all_ask<R: Threads + Wait + Sync>(
    rt: &R,
    alloc: Global,
    store: &Store<ListKeeper>,
    passes: Vec<Pass<ListKeeper>>,
    count: u64,
    keys: u8,
) -> Result<Vec<bool>, AllocError>
    requires passes { All (IsPassOf store.now) passes.items }
    requires keys { 1 ≤ keys }
{
    map_vec(rt, passes, &|pass| ask_often(rt, alloc, store, pass, count, keys).is_ok())
}

fn make_passes<R>(
    rt: &R,
    alloc: Global,
    store: &Store<ListKeeper>,
    roll: &mut Roll<ListKeeper>,
    count: u64,
) -> Result<Vec<Pass<ListKeeper>>, NoMemory>
    requires roll { IsRollOf store.now roll.old }
    requires no_pass { passes_of roll.old ≡ 0 }
    requires count { count < 2 ^ 32 }
    ensures passes { IfOk result (λ v. All (IsPassOf store.now) v.items) }
{
    let mut passes = Vec::new(alloc);
    for _ in 0..count {
        passes.push(store.pass(rt, alloc, roll)?)?;
    }
    Ok(passes)
}

fn keepers(alloc: Global) -> Result<Vec<ListKeeper>, NoMemory>
    ensures { IfOk result (λ v. (length v.items ≡ 8) × All (λ pairs. pairs ≡ []) v.items) }
{
    let mut keepers = Vec::new(alloc);
    for _ in 0..SHARDS {
        keepers.push(ListKeeper::new(alloc))?;
    }
    Ok(keepers)
}

fn main(rt: HostRuntime) -> anyhow::Result<()> {
    let alloc = rt.alloc();
    for keys in [8u8, 1] {
        for threads in [1u64, 2, 4, 8] {
            let Ok(keepers) = keepers(alloc) else {
                return Ok(());
            };
            let Ok(fresh) = Store::new(&rt, alloc, keepers, 1, i64::MAX as u64, 0) else {
                return Ok(());
            };
            let FreshStore { store, mut roll } = fresh;
            let Ok(passes) = make_passes(&rt, alloc, &store, &mut roll, threads) else {
                return Ok(());
            };
            let start = Instant::now(&rt)?;
            all_ask(&rt, alloc, &store, passes, REQUESTS / threads, keys)?;
            let nanoseconds = start.elapsed(&rt)?.as_nanos();
            println!(rt; "{keys} {threads} {REQUESTS} {nanoseconds}")?;
        }
    }
    Ok(())
}
PROGRAM
mkdir proofs/ask_often proofs/make_passes proofs/keepers
cat >proofs/ask_often/Invariants.antt <<'PROOF'
use Rattle.std.proofs.Common.{◌<◌}
use Rattle.state_store.specs.Passes.{IsPassOf}
use Rattle.store_bench.proofs.ask_often.Given as goal

abbrev pub invariant-loop-turn : goal.invariant-loop-turn
invariant-loop-turn g l = IsPassOf l.store l.pass × (l.key < l.keys)
PROOF
cat >proofs/make_passes/Invariants.antt <<'PROOF'
use Rattle.std.proofs.Common.{◌≡◌, All}
use Rattle.state_store.specs.Passes.{IsPassOf, IsRollOf, passes_of}
use Rattle.store_bench.proofs.make_passes.Given as goal

abbrev pub invariant-loop : goal.invariant-loop
invariant-loop g l = IsRollOf l.store l.roll × (passes_of l.roll ≡ l.counter) × All (IsPassOf l.store) l.passes.items
PROOF
cat >proofs/keepers/Invariants.antt <<'PROOF'
use Rattle.std.proofs.Common.{◌≡◌, [], All, length}
use Rattle.store_bench.proofs.keepers.Given as goal

abbrev pub invariant-loop : goal.invariant-loop
invariant-loop l = (length l.keepers.items ≡ l.counter) × All (λ pairs. pairs ≡ []) l.keepers.items
PROOF

echo 'proving and building ..' >&2
rt run >build.log 2>&1 || { cat build.log >&2; exit 1; }
rustc -O -o mutex "$here/mutex_map.rs"
for _ in $(seq "$rounds"); do
    ./out/store_bench >>store.txt
    ./mutex >>mutex.txt
done

# the median of the requests a second on so many keys by so many threads
median() {
    awk -v keys="$2" -v threads="$3" '$1 == keys && $2 == threads { printf "%.0f\n", $3 * 1e9 / $4 }' "$1" | sort -n \
        | awk '{ all[NR] = $1 } END { print all[int((NR + 1) / 2)] }'
}
echo "processors: $(nproc), rounds: $rounds"
printf '%6s %8s %20s %20s\n' keys threads 'store, a second' 'Mutex, a second'
for keys in 8 1; do
    for threads in 1 2 4 8; do
        printf '%6d %8d %20d %20d\n' "$keys" "$threads" "$(median store.txt "$keys" "$threads")" "$(median mutex.txt "$keys" "$threads")"
    done
done
