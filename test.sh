#!/usr/bin/env bash
# All tests: the checker's, every proof (what rt kept on this machine of the same files stands), every edit that must be refused, every program against its stored output, then the
# proved typing, the proved step and its preview, the proved run and the proved replay against the checker's on random cases; the examples and their pages; the library from C
# and from Rust; a page in a browser, where one is installed; and the library on random files beside the checker in one process.
set -euo pipefail
cd "$(dirname "$0")"
checked='rattle-kit-13f logic dac8208d650f15bf'
version=$(rt version)
if [ "$version" != "$checked" ]; then
    echo "test.sh: rt version says '$version', and the proofs were last checked under '$checked'; a proof that fails may be the toolchain's doing" >&2
fi
logs=$(mktemp -d)
trap 'rm -r "$logs"' EXIT

# finish PID LOG: waits for what was started beside the rest, shows what it said, and fails if it failed.
finish() {
    local status=0
    wait "$1" || status=$?
    cat "$2"
    return "$status"
}

# Beside the first proofs, which wait for each other and leave a core free.
(cd checker && cargo test --release --offline) > "$logs/checker" 2>&1 &
tests=$!
rt ci 2>&1 | tee "$logs/ci"
# An edit that cannot be applied or read shows nothing, and rt passes all the same.
if grep -Eq '^rt: ok.*, [1-9][0-9]* bad' "$logs/ci"; then
    echo "test.sh: an edit that must be refused is bad" >&2
    exit 1
fi
finish "$tests" "$logs/checker"

./build.sh library replay cases
comparisons=
for kind in typing step preview run replay; do
    checker/compare.sh "$kind" 1 10000 > "$logs/$kind" 2>&1 &
    comparisons="$comparisons $!:$logs/$kind"
done
for comparison in $comparisons; do
    finish "${comparison%%:*}" "${comparison#*:}"
done
for file in checker/vectors/replay/*.in; do
    target/bin/replay < "$file" | cmp - "${file%.in}.out"
done
examples/test.sh
bindings/test.sh
bindings/page-test.sh
cargo run --release --offline --quiet --manifest-path bench/Cargo.toml --bin scale -- 1 20000
tail -n 1 "$logs/ci"
