#!/usr/bin/env bash
# Turns a second of 1, 2, 4 and 8 threads: the turnstile, beside std's Mutex in plain Rust, in one run.
# It needs `rt` and `rustc`, and proves and builds a program over the turnstile in a folder of its own.
# usage: bench/turns.sh [ROUNDS]; it prints the median of the rounds, 5 unless given.
set -euo pipefail
rounds=${1:-5}
here=$(cd "$(dirname "$0")" && pwd)
work=$(mktemp -d)
trap 'rm -rf "$work"' EXIT

mkdir -p "$work/crates/turn_bench/src" "$work/crates/turn_bench/specs" "$work/crates/turn_bench/proofs"
cp "$here/../HANDLES" "$work/"
for crate in asp_base turnstile; do
    mkdir "$work/crates/$crate"
    cp -r "$here/../crates/$crate/src" "$here/../crates/$crate/specs" "$here/../crates/$crate/proofs" "$work/crates/$crate/"
done
grep -E '^(asp_base|turnstile)\b' "$here/../crates.txt" >"$work/crates.txt"
echo 'turn_bench may_wait=8: turnstile anyhow' >>"$work/crates.txt"

cd "$work/crates/turn_bench"
touch specs/Lib.antt proofs/Lib.antt
cat >src/main.rt <<'PROGRAM'
//! Takes turns in 1, 2, 4 and 8 threads, and prints for each the threads, the turns of all and the nanoseconds.
#![tactic(auto)]
ghost use Rattle.std.specs.Prelude.{◌≡◌, ◌<◌, ◌^◌, false, All, IfOk};
ghost use Rattle.turnstile.specs.Turns.{turnstile_id, pass_home, roll_home, passes_made, has_turn};

use std::alloc::{AllocError, Global};
use std::sync::Wait;
use std::thread::{Threads, map_vec};
use std::time::Instant;
use turnstile::{FreshTurns, Spent, Stands, TurnTerms, TurnPass, TurnRoll, Turnstile};

const TURNS: u64 = 200_000;

#[derive(Drop)]
struct Sum {
    sum: u64,
}

#[derive(Drop)]
struct Addition {
    caller: u64,
}

impl Stands for Sum {
    type Entry = Addition;

    ghost stands = { λ s first entries. Unit {0} };

    ghost caller = { λ x. x.caller };
}

fn add_often<R: Wait>(
    rt: &R,
    turns: &Turnstile<Sum>,
    mut pass: TurnPass<Sum>,
    count: u64,
) -> Result<(), Spent>
    requires home { pass_home pass ≡ turnstile_id turns.now }
    requires outside { has_turn pass ≡ false }
{
    for _ in 0..count {
        let mut turn = turns.enter(rt, &mut pass)?;
        let state = turn.state();
        state.sum = state.sum.wrapping_add(1);
        let caller = pass.caller();
        turns.leave(rt, &mut pass, turn, &Addition { caller });
    }
    Ok(())
}

fn all_add<R: Threads + Wait + Sync>(
    rt: &R,
    turns: &Turnstile<Sum>,
    passes: Vec<TurnPass<Sum>>,
    turns_each: u64,
) -> Result<Vec<bool>, AllocError>
    requires passes { All (λ p. (pass_home p ≡ turnstile_id turns.now) × (has_turn p ≡ false)) passes.items }
{
    map_vec(rt, passes, &|pass| add_often(rt, turns, pass, turns_each).is_ok())
}

fn make_passes<R>(
    rt: &R,
    alloc: Global,
    turns: &Turnstile<Sum>,
    roll: &mut TurnRoll<Sum>,
    count: u64,
) -> Result<Vec<TurnPass<Sum>>, AllocError>
    requires home { roll_home roll.old ≡ turnstile_id turns.now }
    requires no_pass { passes_made roll.old ≡ 0 }
    requires count { count < 2 ^ 32 }
    ensures passes { IfOk result (λ v. All (λ p. (pass_home p ≡ turnstile_id turns.now) × (has_turn p ≡ false)) v.items) }
{
    let mut passes = Vec::new(alloc);
    for _ in 0..count {
        passes.push(turns.pass(rt, roll))?;
    }
    Ok(passes)
}

fn main(rt: HostRuntime) -> anyhow::Result<()> {
    for threads in [1u64, 2, 4, 8] {
        let terms = TurnTerms { first_place: 0, first_number: 0, last_number: 0 };
        let Ok(fresh) = Turnstile::new(&rt, rt.alloc(), Sum { sum: 0 }, terms) else {
            return Ok(());
        };
        let FreshTurns { turns, mut roll } = fresh;
        let passes = make_passes(&rt, rt.alloc(), &turns, &mut roll, threads)?;
        let start = Instant::now(&rt)?;
        all_add(&rt, &turns, passes, TURNS / threads)?;
        let nanoseconds = start.elapsed(&rt)?.as_nanos();
        println!(rt; "{threads} {TURNS} {nanoseconds}")?;
    }
    Ok(())
}
PROGRAM
mkdir proofs/add_often proofs/make_passes
cat >proofs/add_often/Invariants.antt <<'PROOF'
use Rattle.std.proofs.Common.{◌≡◌, false}
use Rattle.turnstile.specs.Turns.{turnstile_id, pass_home, has_turn}
use Rattle.turn_bench.proofs.add_often.Given as goal

abbrev pub invariant-loop : goal.invariant-loop
invariant-loop g l = (pass_home l.pass ≡ turnstile_id l.turns) × (has_turn l.pass ≡ false)
PROOF
cat >proofs/make_passes/Invariants.antt <<'PROOF'
use Rattle.std.proofs.Common.{◌≡◌, false, All}
use Rattle.turnstile.specs.Turns.{turnstile_id, pass_home, roll_home, passes_made, has_turn}
use Rattle.turn_bench.proofs.make_passes.Given as goal

abbrev pub invariant-loop : goal.invariant-loop
invariant-loop g l =
    (roll_home l.roll ≡ turnstile_id l.turns)
    × (passes_made l.roll ≡ l.counter)
    × All (λ p. (pass_home p ≡ turnstile_id l.turns) × (has_turn p ≡ false)) l.passes.items
PROOF

echo 'proving and building ..' >&2
rt run >build.log 2>&1 || { cat build.log >&2; exit 1; }
rustc -O -o mutex "$here/mutex.rs"
for _ in $(seq "$rounds"); do
    ./out/turn_bench >>turnstile.txt
    ./mutex >>mutex.txt
done

# the median of the turns a second at so many threads
median() {
    awk -v threads="$2" '$1 == threads { printf "%.0f\n", $2 * 1e9 / $3 }' "$1" | sort -n \
        | awk '{ all[NR] = $1 } END { print all[int((NR + 1) / 2)] }'
}
echo "processors: $(nproc), rounds: $rounds"
printf '%8s %20s %20s\n' threads 'turnstile, a second' 'Mutex, a second'
for threads in 1 2 4 8; do
    printf '%8d %20d %20d\n' "$threads" "$(median turnstile.txt "$threads")" "$(median mutex.txt "$threads")"
done
