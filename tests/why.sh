#!/bin/sh
# Holds the proved program that says why a page is refused, crates/why, against agreed answers and against `page --why` on made
# streams. Stops at the first difference. Usage: why.sh FOLDER [stored | WORD...], where tests/build.sh has put its programs. `stored` compares the
# agreed answers and the names in them with docs/FIELDS.md, other words are for `compare`; without any the script does the first and then `reasons 300`.
set -eu
bin=$(realpath "${1:?"usage: why.sh FOLDER [stored | WORD...]"}")
shift
cd "$(dirname "$0")/.."
. tests/proved.sh
proved why
answers=crates/vectors/data/C-19

# listed: the fixed list of names, each in the first cell of a row
listed() { sed -n '/^<!-- names -->$/,/^<!-- end of names -->$/s/^| `\([^`]*\)` |.*/\1/p' docs/FIELDS.md | LC_ALL=C sort; }

# met: the names that an agreed answer has; and those that no stream makes this program print, which lends twice as many work cells as sample cells, as
# a page needs, and neither marks nor distances
met() {
    {
        cat "$answers"/*.txt | sed -n 's/^field //p'
        printf '%s\n' 'work cells' 'marks in bytes' 'distance cells'
    } | LC_ALL=C sort -u
}

compare_names() {
    listed >"$said"
    met | diff "$said" - || { echo "docs/FIELDS.md (<) and the agreed answers (>) do not have the same names"; exit 1; }
    echo "$(wc -l <"$said") names in docs/FIELDS.md, as in the agreed answers"
}

compare_stored() {
    says 'answer 1 at 0
field SOC start marker
bytes left 0
bytes needed 2' </dev/null
    head -c 16384 /dev/zero | says 'answer 2 at 0
field SOC start marker
found 0x0000
expected 0xff10'
    head -c 16385 /dev/zero | says 'input too long'
    tests/vectors.sh "$answers" $program
    compare_names
}

compare_made() { "$bin/compare" "$bin/page --why" "$program" "$@"; }

case ${1:-} in
stored) compare_stored ;;
'')
    compare_stored
    compare_made reasons 300
    ;;
*) compare_made "$@" ;;
esac
