#!/usr/bin/env bash
# The proved program of cases against the checker on random ones: checker/compare.sh KIND [SEED [COUNT]], from the root of the repository.
# KIND is replay, typing, step, run or preview.
set -euo pipefail
kind=${1:?KIND is replay, typing, step, run or preview}
seed=${2:-1}
count=${3:-10000}
program=target/bin/cases
if [ ! -x "$program" ]; then
    echo "no $program: run './build.sh cases' first" >&2
    exit 1
fi
(cd checker && cargo build --release --offline --quiet)
checker=checker/target/release/checker
folder=$(mktemp -d)
trap 'rm -r "$folder"' EXIT
"$checker" gen "$seed" "$count" "$kind" "$folder"
"$checker" numbers "$kind" "$folder" "$folder/cases" "$folder/expected"
"$program" < "$folder/cases" > "$folder/found"

# The number of the first line of a file that another does not have there. An empty string makes the lines text, not numbers.
first_difference() {
    awk -v other="$2" '(getline line < other) < 1 || line "" != $0 "" { print NR; exit }' "$1"
}

at=$(first_difference "$folder/expected" "$folder/found")
if [ -n "$at" ]; then
    input=$(find "$folder/$kind" -name '*.in' | LC_ALL=C sort | sed -n "${at}p")
    {
        echo "The $kind case $at of $count of seed $seed differs:"
        cat -v "$input"
        echo "The checker answers:"
        cat "${input%.in}.out"
        # The bytes of a file stand in no one line.
        if [ "$kind" != replay ]; then
            echo "The case as numbers:"
            sed -n "${at}p" "$folder/cases"
        fi
        echo "As numbers, the answer expected, and the one found:"
        for lines in expected found; do
            sed -n "${at}p" "$folder/$lines"
        done
    } >&2
    exit 1
fi
answers=$(wc -l < "$folder/found")
if [ "$answers" -ne "$count" ]; then
    echo "$answers answers to $count cases" >&2
    exit 1
fi
echo "$count $kind cases of seed $seed, none differ"
