# For scripts that hold a proved program against the independent decoder, from the project's folder.

# proved NAME: proves and builds the program of crates/NAME where something has changed since, and makes `program` its command line. Programs are compiled
# for x86-64: elsewhere Debian's emulator runs them, with the kit's C library.
proved() {
    (cd "crates/$1" && rt run </dev/null) >"$said" 2>&1 || { cat "$said"; echo "crates/$1: not proved, or it did not run"; exit 1; }
    program=$(realpath "crates/$1/out/$1")
    if [ "$(uname -m)" != x86_64 ]; then
        command -v qemu-x86_64 >/dev/null || { . examples/install.sh && install qemu-user; }
        kit=$(dirname "$(dirname "$(realpath "$(command -v rt)")")")/toolchain
        program="qemu-x86_64 $kit/lib/ld-linux-x86-64.so.2 --library-path $kit/lib $program"
    fi
}

# says TEXT: what the program writes for its input, and a newline
said=$(mktemp)
trap 'rm -f "$said"' EXIT
says() { $program >"$said" && printf '%s\n' "$1" | cmp - "$said" || { echo "proved program: not '$1'"; exit 1; }; }
