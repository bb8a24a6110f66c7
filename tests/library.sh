#!/bin/sh
# Reads generated pages, some of several megapixels, with the C example over the static library, and compares answers, distances, samples, where the bytes
# went, why pages are refused and where others are coarsest with the independent decoder's, in the damaged mode and with distances at each sample too; then
# what the record says of a caption with stored answers.
# Usage: library.sh FOLDER, where tests/build.sh has put its programs. Stops at the first difference.
set -eu
bin=$(realpath "${1:?"usage: library.sh FOLDER"}")
cd "$(dirname "$0")/.."
. examples/x86.sh
library
out=$(mktemp -d)
trap 'rm -rf "$out"' EXIT
$compile examples/read.c "$archive" -o "$out/read"

# compare_by MODE STREAM...: MODE is one argument, the words for both readers: with masks of what is lost, distances at each sample, both or neither;
# the others are for tests' `stream`
compare_by() {
    mode=$1
    shift
    mkdir "$out/ours" "$out/theirs"
    "$bin/stream" "$@" >"$out/page.jxs"
    status=0
    $run "$out/read" $mode "$out/page.jxs" "$out/ours/page" >"$out/record" || status=$?
    echo "$status" >"$out/ours/status"
    answer "$out/record" >"$out/ours/answer"
    sed -n '/^bytes .* %$/p' "$out/record" >"$out/ours/bytes"
    "$bin/page" --any $mode --bytes --pictures "$out/theirs/page" <"$out/page.jxs" >"$out/report"
    status_for "$out/report" >"$out/theirs/status"
    answer "$out/report" >"$out/theirs/answer"
    shares "$out/report" >"$out/theirs/bytes"
    reason "$out/record" >"$out/ours/reason"
    $run "$out/read" --why $mode "$out/page.jxs" >"$out/ours/why" || true
    "$bin/page" --any $mode --why <"$out/page.jxs" >"$out/theirs/why"
    sed -n 'p; 1s/.*/refused: for a reason/p' "$out/theirs/why" >"$out/report"
    reason "$out/report" >"$out/theirs/reason"
    diff -r -q "$out/ours" "$out/theirs" || {
        echo "${mode:+$mode, }stream $*: $(cat "$out/ours/answer"), status $status, independent decoder $(cat "$out/theirs/answer")"
        diff "$out/ours/bytes" "$out/theirs/bytes" || true
        diff "$out/ours/reason" "$out/theirs/reason" || true
        diff "$out/ours/why" "$out/theirs/why" || true
        exit 1
    }
    echo "${mode:+$mode, }stream $*: $(head -n 1 "$out/ours/answer")$(sed -n 's/^field /, /p' "$out/ours/reason"), same"
    cat "$out/ours/reason" >>"$out/reasons"
    rm -r "$out/ours" "$out/theirs"
}

compare() { compare_by '' "$@"; }

# answer REPORT: the first line, and what the distances at the samples come to
answer() { sed -n '1p; / largest /p' "$1"; }

# shares REPORT: what the example prints of bytes where the independent decoder says this: of a page that is read a line for each total, with its
# hundredths of a per cent of the stream's length, rounded half up; of a refused one nothing
shares() {
    awk '/^answer 0 / { length_in_bytes = $4 }
        /^bytes / && length_in_bytes {
            for (i = 2; i < NF; i += 2) {
                twice = 20000 * $(i + 1) + length_in_bytes
                hundredths = (twice - twice % (2 * length_in_bytes)) / (2 * length_in_bytes)
                printf "bytes %s %s %d.%02d %%\n", $i, $(i + 1), (hundredths - hundredths % 100) / 100, hundredths % 100
            }
        }' "$1"
}

# reason REPORT: of a refused page all lines, whatever sentence the second has; of one that is read nothing
reason() { sed -n '/^answer 0 /q; 2s/^refused: ..*/refused:/; p' "$1"; }

# status_for REPORT: the exit status of the example where the independent decoder says this: 1 refused, 3 read with loss, 0 read without
status_for() { awk 'NR == 1 && !/^answer 0 / { status = 1 } / lost / && $4 > 0 { status = 3 } END { print status + 0 }' "$1"; }

compare measured lossless 2000 2000
compare measured lossy 1999 1501
compare measured subsampled 2001 1999
compare measured sheet 4000 3000
compare measured uniform 1501 1999
for seed in 1 2 3 4 5 6; do
    compare syntax $seed large
    compare picture $seed large
    compare filled $seed large
    compare damaged $seed large
    compare_by --damaged spoilt $seed large
    compare_by --damaged apart $seed large
    compare_by --distances coarse $seed large
    compare_by '--damaged --distances' spoilt $seed large
    compare_by '--damaged --distances' apart $seed large
done
compare_by --damaged measured subsampled 1001 999
compare_by --distances measured coarse 2000 2000
compare_by --distances measured coarse-subsampled 1999 1501
compare_by '--damaged --distances' measured coarse 1501 1999
for mode in '' --damaged --distances '--damaged --distances'; do
    compare_by "$mode" foreign 1
done

# refused_by MODE SEED...: streams that are refused, most of them
refused_by() {
    mode_of_all=$1
    shift
    for seed; do
        compare_by "$mode_of_all" damaged $seed large
        compare_by "$mode_of_all" spoilt $seed large
        compare_by "$mode_of_all" aimed $seed large
        compare_by "$mode_of_all" bounds $seed
        compare_by "$mode_of_all" foreign $seed
    done
}

refused_by '' 7 8 9 10 11 12
refused_by --damaged 8 13 14 15 16 17 18 19 20 21
refused_by --distances 22 23 24 25
refused_by '--damaged --distances' 8 26 27 28 29 30
echo "$(grep -c '^answer ' "$out/reasons") pages refused for the same reason, $(grep '^field ' "$out/reasons" | sort -u | wc -l) fields named"

# caption NAME: the record's yes or no crosses to C as NAME.caption has it. Of a refused page the example says nothing but why
caption() {
    status=0
    $run "$out/read" "$1.jxs" >"$out/record" || status=$?
    [ "$status" -le 1 ] || { echo "$1: the example ended with status $status"; exit 1; }
    head -n 1 "$1.txt" >"$out/wanted"
    [ "$status" -eq 1 ] || cat "$1.caption" >>"$out/wanted"
    sed -n '1p; /^caption/p' "$out/record" | cmp -s - "$out/wanted" || { echo "$1: not $(paste -s -d ' ' "$out/wanted")"; exit 1; }
}

told=0
for stream in crates/vectors/data/C-13/*.jxs; do
    caption "${stream%.jxs}"
    told=$((told + 1))
done
echo "$told streams of C-13: answer and caption as stored"
