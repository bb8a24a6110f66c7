#!/bin/sh
# Times the library beside the independent decoder, and prints two tables. In the first, `native`, both are compiled for this machine, the library by native.sh from
# its sources, proved or not. The second has the kit's build, of what is proved and for x86-64, beside the decoder for x86-64. Where native.sh cannot compile the
# library a line says so in place of the first table, and the status is 3.
#
# Usage: run.sh FOLDER [READINGS [SIDE...]], where tests/build.sh has put its programs. Pages are lossless, lossy, 4:2:0, of one component and uniformly quantised, of
# 1, 4 and 16 megapixels; in the first table also in columns of 256 samples, and one of 256 x 256.
#
# The second table is made under Debian's emulator on Arm, and on x86-64 where the emulator is there: only the ratio says something then. From the environment:
# EMULATED, on x86-64: 1 installs the emulator where it is missing, 0 does without it.
# shellcheck disable=SC2086 # lists of words are to be split
set -eu
bin=$(realpath "${1:?"usage: run.sh FOLDER [READINGS [SIDE...]]"}")
shift
readings=${1:-5}
[ $# -eq 0 ] || shift
sides=${*:-1000 2000 4000}
cd "$(dirname "$0")/../.."
out=$(mktemp -d)
trap 'rm -rf "$out"' EXIT

# make_pages NAME...: at each side, where they are missing; sets `pages`
make_pages() {
    pages=
    for name; do
        for side in $sides; do
            [ -f "$out/$name-$side" ] || "$bin/stream" measured "$name" "$side" "$side" >"$out/$name-$side"
            pages="$pages $name-$side"
        done
    done
}
all="lossless lossy subsampled sheet uniform uniform-lossless"

tests/bench/rival.sh "$out"
status=0
if tests/bench/native.sh "$out" && cc -O2 tests/bench/main.c "$out/native.o" "$out/librival.a" -lpthread -ldl -lm -Wl,--no-warnings -o "$out/native"; then
    printf 'native\n\n'
    make_pages $all columns
    "$bin/stream" measured lossless 256 256 >"$out/lossless-256"
    (cd "$out" && ./native "$readings" lossless-256 $pages)
else
    echo "no table 'native': tests/bench/native.sh cannot compile the library for this machine, and says why"
    status=3
fi
echo

. examples/x86.sh
library
how="run directly"
if [ -z "$run" ] && [ "${EMULATED:-$(command -v qemu-x86_64 || echo 0)}" != 0 ]; then
    command -v qemu-x86_64 >/dev/null || install qemu-user
    compile="$compile -static" run=qemu-x86_64
fi
# Rust for x86-64: on Arm Debian's compiler, which has the standard library of both.
if [ "$(uname -m)" != x86_64 ]; then
    [ -d "$(/usr/bin/rustc --target x86_64-unknown-linux-gnu --print target-libdir 2>/dev/null)" ] ||
        { dpkg --add-architecture amd64 && install rustc libstd-rust-dev:amd64; }
    tests/bench/rival.sh "$out" /usr/bin/rustc --target x86_64-unknown-linux-gnu
fi
$compile tests/bench/main.c "$archive" "$out/librival.a" -lpthread -ldl -Wl,--no-warnings -o "$out/kit"
# The emulator takes the x86 instruction that fills memory byte by byte, which no processor does. So both sides fill memory as on processors without it.
[ -z "$run" ] || run="$run -cpu max,-erms" how="under the emulator"
printf "x86-64, the kit's build, %s\n\n" "$how"
make_pages $all
(cd "$out" && $run ./kit "$readings" $pages)
exit $status
