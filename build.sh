#!/bin/sh
# Proves crates and builds what they make, with the Rattle toolchain (rt): see the usage.
#
#   ./build.sh replay     the program target/bin/replay; likewise cases
#   ./build.sh library    the static library target/staticlib/liblibrary.a
#
# The first call takes minutes. What rt says goes to standard error. Exit status: 0 all was proved and is built, 1 something was not proved or not built, 2 a wrong call.
set -u
root=$(cd "$(dirname "$0")" && pwd) || exit 2

# put FROM FOLDER: a fresh copy under target/, so that its date says when it was proved.
put() {
    mkdir -p "$root/target/$2" && cp "$1" "$root/target/$2/"
}

if [ $# -eq 0 ]; then
    echo "usage: ./build.sh replay|cases|library .." >&2
    exit 2
fi
if ! command -v rt > /dev/null; then
    echo "build.sh: the Rattle toolchain is needed: the command rt, on the PATH" >&2
    exit 2
fi
for crate; do
    case $crate in
        library)
            (cd "$root/crates/library" && rt lib) >&2 || exit 1
            put "$root/crates/library/out/liblibrary.a" staticlib || exit 1
            ;;
        # A program is run once, on an empty input, which proves and builds it; what it answers to that is dropped.
        replay | cases)
            (cd "$root/crates/$crate" && rt run < /dev/null > /dev/null) || exit 1
            put "$root/crates/$crate/out/$crate" bin || exit 1
            ;;
        *)
            echo "build.sh: $crate makes no program and no library: replay, cases or library" >&2
            exit 2
            ;;
    esac
done
