#!/bin/sh
# Holds the proved page program, crates/page, against the independent decoder on made streams. Stops at the first
# difference. Usage: program.sh FOLDER [WORD...], where tests/build.sh has put its programs; the words are for `compare`.
set -eu
bin=$(realpath "${1:?"usage: program.sh FOLDER [WORD...]"}")
shift
cd "$(dirname "$0")/.."
. tests/proved.sh
proved page
says 'answer 1 at 0' </dev/null
head -c 16384 /dev/zero | says 'answer 2 at 0'
head -c 16385 /dev/zero | says 'input too long'
"$bin/compare" "$bin/page" "$program" "$@"
