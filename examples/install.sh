# Sourced. Installs Debian's packages; where it cannot, says which are needed, and ends.
install() {
    [ "$(id -u)" -eq 0 ] && command -v apt-get >/dev/null || { echo "this needs Debian's packages $*" >&2; exit 2; }
    { apt-get update -q && apt-get install -y -q "$@"; } >&2
}
