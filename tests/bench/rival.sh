#!/bin/sh
# Compiles the independent decoder so that a C program can link it, and puts FOLDER/librival.a there.
# Usage: rival.sh FOLDER [COMPILER [WORD...]], where the compiler is rustc if none is named
set -eu
out=$(realpath "${1:?"usage: rival.sh FOLDER [COMPILER [WORD...]]"}")
shift
[ $# -gt 0 ] || set -- rustc
cd "$(dirname "$0")/../.."
"$@" -O --edition 2021 --crate-type rlib --crate-name independent tests/independent/lib.rs --out-dir "$out"
"$@" -O --edition 2021 -L "$out" --crate-type staticlib --crate-name rival --extern independent tests/bench/rival.rs -o "$out/librival.a"
