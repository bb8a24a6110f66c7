# Sourced, in the repository's root. The library is built for x86-64: on Arm a cross compiler makes the programs that link it, and an emulator runs them, both
# from Debian's packages. Sets `compile` and `run`, the beginnings of command lines; `library` builds crates/pitchladle/out/libpitchladle.a, for every x86-64
# processor, where it is missing or old.
. examples/install.sh
case $(uname -m) in
x86_64)
    compile="cc -O2" run=
    command -v cc >/dev/null || install gcc libc6-dev
    ;;
*)
    compile="x86_64-linux-gnu-gcc -O2 -static" run=qemu-x86_64
    command -v x86_64-linux-gnu-gcc >/dev/null && command -v qemu-x86_64 >/dev/null || install gcc-x86-64-linux-gnu libc6-dev-amd64-cross qemu-user
    ;;
esac
library() {
    archive=crates/pitchladle/out/libpitchladle.a
    [ -f "$archive" ] && [ -z "$(find crates/*/src -name '*.rt' -newer "$archive")" ] && return
    echo "proving and building the library; the first time this takes some minutes" >&2
    (cd crates/pitchladle && rt lib --cpu x86-64) >&2
}
