#!/bin/sh
# Compares a page program with agreed answers. Usage: vectors.sh FOLDER[:ENDING] COMMAND...
# Each stream NAME.jxs under FOLDER is given to COMMAND, whose output must be NAME.ENDING byte for byte. ENDING is txt where
# none is given; it tells answers of one mode from those of another.
set -eu
folder=${1:?"usage: vectors.sh FOLDER[:ENDING] COMMAND..."}
shift
ending=txt
case $folder in
*:*) ending=${folder##*:} folder=${folder%:*} ;;
esac
answer=$(mktemp)
trap 'rm -f "$answer"' EXIT
agreed=0 differing=0
for stream in $(find "$folder" -name '*.jxs' | sort); do
    agreed_answer=${stream%.jxs}.$ending
    "$@" <"$stream" >"$answer" || true
    if cmp -s "$answer" "$agreed_answer"; then
        agreed=$((agreed + 1))
    else
        differing=$((differing + 1))
        echo "$stream: $(head -n 1 "$answer"), not $(head -n 1 "$agreed_answer")"
    fi
done
echo "$agreed agreed, $differing differing"
[ "$agreed" -gt 0 ] && [ "$differing" -eq 0 ]
