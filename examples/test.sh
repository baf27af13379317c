#!/bin/sh
# Replays every example with the proved program, which must have been built before (./build.sh replay): an
# example must be accepted, a damaged one must have exactly the six lines that are stored beside it. And the
# two sides, the steps and the end in the text beside an example must be what the command page writes of it, from
# the proved library, which must have been built too (./build.sh library).
# The last line is 'N passed, M failed'.
set -u
cd "$(dirname "$0")/.." || exit 2
program=target/bin/replay
if [ ! -x "$program" ]; then
    echo "examples/test.sh: $program is missing; build it with: ./build.sh replay" >&2
    exit 2
fi
if [ ! -f target/staticlib/liblibrary.a ]; then
    echo "examples/test.sh: target/staticlib/liblibrary.a is missing; build it with: ./build.sh library" >&2
    exit 2
fi
cargo build --release --offline --quiet --manifest-path bindings/rust/Cargo.toml --target-dir bindings/rust/target --bin page || exit 2
page=bindings/rust/target/release/page
lines=$(mktemp)
trap 'rm "$lines"' EXIT
passed=0
failed=0

# tell FILE STATUS: counts a test, and names the file of one that failed.
tell() {
    if [ "$2" -eq 0 ]; then
        passed=$((passed + 1))
    else
        failed=$((failed + 1))
        echo "failed: $1"
    fi
}

# made: of a text, the lines that the command makes; the others are written by hand.
made() {
    grep -E '^(- (left|right): |[0-9]+\. (left|right), |Both sides end as )'
}

for file in examples/*.fj; do
    [ "$("$program" < "$file" | head -n 1)" = "code=0" ]
    tell "$file" $?
    "$page" "$file" | made > "$lines"
    made < "${file%.fj}.md" | cmp -s - "$lines" && [ -s "$lines" ]
    tell "${file%.fj}.md" $?
done
for file in examples/damaged/*.fj; do
    "$program" < "$file" | cmp -s - "${file%.fj}.out"
    tell "$file" $?
done
echo "$passed passed, $failed failed"
[ "$failed" -eq 0 ]
