#!/bin/sh
# Holds the proved program of the other modes, crates/modes, against agreed answers and against `page --modes` on made
# streams. Stops at the first difference. Usage: modes.sh FOLDER [stored | WORD...], where tests/build.sh has put its programs. `stored` compares the
# agreed answers, other words are for `compare`; without any the script does the first and then `spoilt 300`, `placed 300` and `counted 300`.
set -eu
bin=$(realpath "${1:?"usage: modes.sh FOLDER [stored | WORD...]"}")
shift
cd "$(dirname "$0")/.."
. tests/proved.sh
proved modes

# agrees LETTER FOLDER[:ENDING]: the mode of this letter has the answers stored there
agrees() { tests/vectors.sh "crates/vectors/data/$2" sh -c "{ printf $1 && cat; } | $program"; }

# refuses LETTER TEXT: the mode of this letter refuses its input so. The modes that tell where the bytes went tell it of a refused page too
refuses() {
    text=$2
    case $1 in
    b | c) text="$text
bytes markers 0 precincts 0 packets 0 significance 0 counts 0 data 0 signs 0 filler 0 spoilt 0" ;;
    esac
    { printf $1 && cat; } | says "$text"
}

compare_stored() {
    says 'unknown mode' </dev/null
    printf 'x' | says 'unknown mode'
    for letter in d p q b c; do
        refuses $letter 'answer 1 at 0' </dev/null
        head -c 16384 /dev/zero | refuses $letter 'answer 2 at 0'
        { printf $letter && head -c 16385 /dev/zero; } | says 'input too long'
    done
    agrees d C-15
    agrees p C-22
    agrees q C-22:damaged.txt
    agrees b C-16
    agrees c C-16:damaged.txt
}

compare_made() { "$bin/compare" "$bin/page --modes" "$program" "$@"; }

case ${1:-} in
stored) compare_stored ;;
'')
    compare_stored
    compare_made spoilt 300
    compare_made placed 300
    compare_made counted 300
    ;;
*) compare_made "$@" ;;
esac
