#!/usr/bin/env bash
# Refuses each allocation of a few calls of a `MapKeeper` in turn, and says whether map and set are then as before.
# It needs `rt`, and builds a program over the keeper in a folder of its own, without a proof. Outside the gate.
# usage: bench/refused.sh; it ends with status 1 where a refused `put` changed something.
set -euo pipefail
here=$(cd "$(dirname "$0")" && pwd)
work=$(mktemp -d)
trap 'rm -rf "$work"' EXIT

mkdir -p "$work/crates/refused/src" "$work/crates/refused/specs" "$work/crates/refused/proofs"
for crate in asp_base asp_messages session_machine keeper; do
    mkdir "$work/crates/$crate"
    for part in src specs proofs; do
        cp -r "$here/../crates/$crate/$part" "$work/crates/$crate/"
    done
done
grep -E '^(asp_base|asp_messages|session_machine|keeper)\b' "$here/../crates.txt" >"$work/crates.txt"
echo 'refused: asp_base session_machine keeper' >>"$work/crates.txt"
cp "$here/../HANDLES" "$work/"

cd "$work/crates/refused"
touch specs/Lib.antt proofs/Lib.antt
cat >src/main.rt <<'PROGRAM'
//! Puts a few items, and says what the first refused allocation left.
#![tactic(auto)]

use asp_base::Bytes;
use keeper::{Keeper, MapKeeper};
use session_machine::Item;
use std::alloc::Global;
use std::io;

/// The count of the set, its first moment, and the moment at which the key was touched.
fn look(keeper: &mut MapKeeper, key: &Bytes) -> Option<(usize, Option<u64>, Option<u64>)> {
    let touched = match keeper.get(key) {
        Ok(Some(item)) => Some(item.touched),
        Ok(None) => None,
        Err(_) => return None,
    };
    let first = keeper.dues().first().map(|due| due.expiry);
    Some((keeper.dues().len(), first, touched))
}

fn outcome(alloc: Global) -> &'static str {
    let mut keeper = MapKeeper::new(alloc);
    for (letter, touched) in [(b'a', 1), (b'b', 2), (b'a', 3)] {
        let Ok(key) = Bytes::copy(alloc, &[b'/', letter]) else {
            return "no put was refused";
        };
        let Ok(body) = Bytes::copy(alloc, b"x") else {
            return "no put was refused";
        };
        let item = Item {
            body,
            minutes: 1,
            fresh: false,
            holder: None,
            touched,
        };
        let before = look(&mut keeper, &key);
        if keeper.put(&key, item).is_err() {
            if look(&mut keeper, &key) == before && before.is_some() {
                return "as before";
            }
            return "changed";
        }
    }
    "all was put"
}

fn main(rt: HostRuntime) -> io::Result<()> {
    let text = outcome(rt.alloc());
    println!(rt; "{text}")
}
PROGRAM
for n in $(seq 1 40); do
    said=$(rt try --fail-alloc "$n" 2>&1 || true)
    line=$(grep -E -m1 '^(as before|changed|no put was refused|all was put)$' <<<"$said" || echo "no answer: $said")
    echo "allocation $n refused: $line"
    case $line in
        "all was put") exit 0 ;;
        "as before" | "no put was refused") ;;
        *) exit 1 ;;
    esac
done
