#!/bin/sh
# Compiles the library for this machine from its sources, proved or not, and puts FOLDER/native.o there, which has the functions of include/pitchladle.h. It proves
# nothing, and it is no build of the kit's: the kit builds for x86-64 alone, and only what is proved. It is for finding out what a change is worth.
#
# Usage: native.sh FOLDER [FLAG...], flags for the compiler, as -mcpu=native. From the environment: APART, functions that are to stay functions of their own, as a
# profile wants them (crate::module::name ...).
#
# It relies on three things of the kit that the kit does not promise: that `rattle-cases`, the kit's tool for running programs without proofs, hands its compiler
# one file of intermediate code (*.bc), that this file names each function as the sources do, and that it takes a slice as the address of a pair, start and
# count. Where one of them is gone it ends with a line that says which.
set -eu
out=$(realpath "${1:?"usage: native.sh FOLDER [FLAG...]"}")
shift
cd "$(dirname "$0")/../.."
gone() { echo "native.sh: the kit has changed: $*; only the kit's own build can be timed" >&2; exit 3; }

machine=$(uname -m)
kit=$(dirname "$(dirname "$(readlink -f "$(command -v rt)")")")
own=$kit/on/$machine
clang=$own/toolchain/bin/clang
cases=$own/bin/rattle-cases
[ -x "$clang" ] || gone "no compiler on/$machine/toolchain/bin/clang"
[ -x "$cases" ] || gone "no tool on/$machine/bin/rattle-cases"
scratch=$(mktemp -d)
trap 'rm -rf "$scratch"' EXIT

# A toolchain whose compiler only keeps its input.
mkdir -p "$scratch/toolchain/bin"
ln -s "$own/toolchain/lib" "$scratch/toolchain/lib"
for tool in "$own"/toolchain/bin/*; do ln -s "$tool" "$scratch/toolchain/bin/"; done
rm "$scratch/toolchain/bin/clang"
cat >"$scratch/toolchain/bin/clang" <<X
#!/bin/sh
for word in "\$@"; do case \$word in *.bc) cp "\$word" "$scratch/module.bc" ;; esac; done
exit 1
X
chmod +x "$scratch/toolchain/bin/clang"

# Any program will do: the file has all functions of the crates that it is given. The tool runs it first, by an interpreter.
echo 'fn main() {}' >"$scratch/main.rt"
all=pitchladle
while :; do
    next=$(for crate in $all; do echo "$crate"; sed -n "s/^$crate\( staticlib\)\{0,1\}: *//p" crates.txt; done | tr ' ' '\n' | sort -u)
    [ "$next" != "$all" ] || break
    all=$next
done
libraries=
for crate in $all; do libraries="$libraries --lib $crate=crates/$crate/src/lib.rt"; done
# shellcheck disable=SC2086
"$cases" --toolchain "$scratch/toolchain" "$scratch/main.rt" --crate-name native --lib "std=$kit/libs/std/src/lib.rt" $libraries >"$scratch/said" 2>&1 || true
[ -f "$scratch/module.bc" ] || { cat "$scratch/said" >&2; gone "rattle-cases hands its compiler no *.bc file"; }

# The same for this machine: no data layout and no processor of another, and the exported functions under names that C can say.
"$clang" --no-default-config -x ir "$scratch/module.bc" -S -emit-llvm -Xclang -disable-llvm-passes -O0 --target=x86_64-unknown-linux-gnu -o "$scratch/module.ll"
sed -i -e '/^target datalayout/d' -e "s/^target triple.*/target triple = \"$machine-unknown-linux-gnu\"/" -e 's/"target-cpu"="[^"]*"//' -e 's/"probe-stack"="[^"]*"//' \
    -e 's/^define internal \(.*@"pitchladle::pitchladle_\)/define \1/' -e 's/@"pitchladle::pitchladle_\([a-z_]*\)"/@rattle_\1/g' -e 's/@main()/@rattle_main()/' "$scratch/module.ll"
for name in needs read read_damaged read_places read_damaged_places why coarsest; do
    grep -q "^define .*@rattle_$name(" "$scratch/module.ll" || gone "no function pitchladle_$name in the intermediate code"
done
grep -q '^define void @rattle_read(ptr [^,]*, ptr [^,]*, ptr [^,]*, ptr [^,]*)' "$scratch/module.ll" || gone "a slice is no address of a pair"
for name in ${APART:-}; do
    sed -i "s/^\(define internal .*@\"$name\"(.*)\) #0/\1 noinline #0/" "$scratch/module.ll"
done
"$clang" --no-default-config --target="$machine-unknown-linux-gnu" "$@" -O3 -fPIC -Wno-override-module -c -x ir "$scratch/module.ll" -o "$scratch/library.o"
cc -O2 -c tests/bench/slices.c -o "$scratch/slices.o"
ld -r "$scratch/library.o" "$scratch/slices.o" -o "$out/native.o"
