#!/bin/sh
# Builds the test programs with rustc alone: page, stream and compare, and the tests of their parts.
# Usage: build.sh FOLDER
set -eu
out=${1:?"usage: build.sh FOLDER"}
here=$(dirname "$0")
mkdir -p "$out"
build() { rustc -O --edition 2021 -L "$out" "$@"; }
build_tests() { rustc --test -C opt-level=1 -C debug-assertions --edition 2021 -L "$out" "$@"; }
build --crate-type rlib --crate-name independent "$here/independent/lib.rs" --out-dir "$out"
build --extern independent --crate-name page "$here/independent/main.rs" -o "$out/page"
build_tests "$here/independent/lib.rs" -o "$out/independent-tests"
build --extern independent --crate-type rlib --crate-name streams "$here/streams/lib.rs" --out-dir "$out"
build --extern independent --extern streams --crate-name stream "$here/streams/main.rs" -o "$out/stream"
build_tests --extern independent "$here/streams/lib.rs" -o "$out/streams-tests"
build --extern independent --extern streams --crate-name compare "$here/compare/main.rs" -o "$out/compare"
