#!/usr/bin/env bash
# Tests the library as C and Rust call it: the Rust crate's tests, and in both languages the example that replays, which must print the answer of the scope's derivation, and the one that
# asks which rules fit where, which must print the one step that the scope's derivation can begin with.
set -euo pipefail
cd "$(dirname "$0")/.."
[ -f target/staticlib/liblibrary.a ] || ./build.sh library
out=$(mktemp -d)
trap 'rm -r "$out"' EXIT
for example in session editor; do
    cc -std=c99 -Wall -Wextra -Werror -pedantic -Iinclude "examples/c/$example.c" target/staticlib/liblibrary.a -o "$out/$example"
    "$out/$example" > "$out/c-$example"
done
cd bindings/rust
cargo test --release --offline
for example in session editor; do
    cargo run --release --offline --quiet --example "$example" > "$out/rust-$example"
done
cd ../..
echo "word 1: rule 71 leaves 5 words, 3 deep" > "$out/first"
for language in c rust; do
    diff crates/replay/stdout "$out/$language-session"
    echo "the $language example prints the six lines"
    diff "$out/first" "$out/$language-editor"
    echo "the $language example offers the first step"
done
