#!/usr/bin/env bash
# Builds the plain program that bench/pipe.py compares with into a folder, and prints its path. It needs rustc and Debian's
# librust-httparse-dev.
# usage: bench/plain_pipe.sh FOLDER
set -euo pipefail
here=$(cd "$(dirname "${BASH_SOURCE[0]}")" && pwd)
to=${1:?usage: bench/plain_pipe.sh FOLDER}
mkdir -p "$to"
crate=$(dirname "$(dpkg -L librust-httparse-dev | grep 'httparse-.*/src/lib.rs$' | head -n 1)")
rustc --edition 2018 -O --crate-type rlib --crate-name httparse --cfg 'feature="std"' --cap-lints allow "$crate/lib.rs" -o "$to/libhttparse.rlib"
rustc --edition 2021 -O -C target-cpu=x86-64-v2 --extern httparse="$to/libhttparse.rlib" "$here/plain_pipe.rs" -o "$to/plain_pipe"
echo "$to/plain_pipe"
