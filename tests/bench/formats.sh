#!/bin/sh
# Places the library beside readers of other formats from Debian's packages, on one synthetic letter (`stream measured lossless`: three components of 8 bits, by
# default A4 at 300 dpi), and prints a table. All are compiled for this machine, the library by native.sh, and read with one thread. No part of the gate.
#
# What the table does not say is which format is best: they are made for different ends, JPEG XS for little delay, the others for small files. A JPEG at quality 100
# is not lossless. Bytes are those of these encoders, and the tests' own writer of JPEG XS is a simple one. One page of letters is not all pages. The packages are as
# Debian built them, and some choose code for the processor at hand; library and decoder are compiled for any processor of this machine's kind.
#
# Usage: formats.sh FOLDER [READINGS [WIDTH HEIGHT]], where tests/build.sh has put its programs
set -eu
bin=$(realpath "${1:?"usage: formats.sh FOLDER [READINGS [WIDTH HEIGHT]]"}")
readings=${2:-5} width=${3:-2480} height=${4:-3508}
cd "$(dirname "$0")/../.."
. examples/install.sh
packages="libopenjp2-7-dev libopenjp2-tools libjxl-dev libjxl-tools libturbojpeg0-dev libjpeg-turbo-progs pkgconf"
missing=$(for package in $packages; do dpkg -s "$package" >/dev/null 2>&1 || echo "$package"; done)
# shellcheck disable=SC2086
[ -z "$missing" ] || install $missing || { echo "not installed:" $missing >&2; exit 2; }
out=$(mktemp -d)
trap 'rm -rf "$out"' EXIT
tests/bench/native.sh "$out"
tests/bench/rival.sh "$out"
# shellcheck disable=SC2046
cc -O2 tests/bench/formats.c "$out/native.o" "$out/librival.a" $(pkg-config --cflags --libs libopenjp2 libjxl libturbojpeg) -lpthread -ldl -lm -o "$out/formats"

cd "$out"
"$bin/stream" measured lossless "$width" "$height" >page.jxs
{
    "$bin/page" --any --pictures page.ppm <page.jxs
    opj_compress -i page.ppm -o page.j2k
    cjxl -d 0 -e 1 page.ppm page.jxl
    cjpeg -quality 100 -sample 1x1 page.ppm >page.jpg
} >said 2>&1 || { cat said >&2; exit 1; }
printf '%s x %s, %s' "$width" "$height" "$(uname -m)"
dpkg-query -W -f ', ${Package} ${Version}' libopenjp2-7-dev libjxl-dev libturbojpeg0-dev
printf '\n\n'
./formats "$readings" page.jxs page.j2k page.jxl page.jpg
