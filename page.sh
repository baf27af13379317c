#!/bin/sh
# Shows derivations as a course would print them, from what the proved library answers: see --help.
#
#   ./page.sh FILE..                 as text
#   ./page.sh --html FOLDER PATH..   as HTML pages in a folder
#   ./page.sh --card FILE..          the record behind the word "verified"
#
# The first call proves the library and builds it, which needs the Rattle toolchain (rt) and takes minutes, and
# builds the command, which needs cargo. Exit status: 0 all files were accepted, 1 some were not, 2 nothing was shown.
set -u
root=$(cd "$(dirname "$0")" && pwd) || exit 2
archive=$root/target/staticlib/liblibrary.a

# Whether the library is missing, or older than a source.
is_stale() {
    [ ! -f "$archive" ] || [ -n "$(find "$root/crates" "$root/crates.txt" -name out -prune -o -type f -newer "$archive" -print | head -n 1)" ]
}

# Proves the library and builds it.
build() {
    if ! command -v rt > /dev/null; then
        echo "page.sh: to prove and build the library, the Rattle toolchain is needed: the command rt, on the PATH" >&2
        exit 2
    fi
    echo "page.sh: proving the library; the first time this takes minutes" >&2
    if ! "$root/build.sh" library; then
        echo "page.sh: the library was not proved (see above), so nothing is shown" >&2
        exit 2
    fi
}

if is_stale; then build; fi
cargo build --release --offline --quiet --manifest-path "$root/bindings/rust/Cargo.toml" --target-dir "$root/bindings/rust/target" --bin page || exit 2
exec "$root/bindings/rust/target/release/page" "$@"
