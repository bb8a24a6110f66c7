#!/bin/sh
# Builds the test programs, runs their own tests, and holds a page program against the independent decoder.
# Usage: check.sh [COMMAND [WORD...]]: COMMAND is one argument, the command line of the page program; the words are
# for compare. Without COMMAND the independent decoder is only held against itself.
set -eu
here=$(dirname "$0")
out=$(mktemp -d)
trap 'rm -rf "$out"' EXIT
"$here/build.sh" "$out"
"$out/independent-tests" --quiet
"$out/streams-tests" --quiet
command=${1:-"$out/page"}
[ $# -eq 0 ] || shift
"$out/compare" "$out/page" "$command" "$@"
