#!/bin/sh
# Replays derivation files with the proved replay, and says each answer in words as well.
#
#   ./replay.sh FILE..
#
# The first call proves the replay and builds it, which needs the Rattle toolchain (rt) and takes
# minutes. Exit status: 0 all files were accepted, 1 some were not, 2 nothing could be replayed.
set -u
root=$(cd "$(dirname "$0")" && pwd) || exit 2
program=$root/target/bin/replay

# --- building ---

# Whether the program is missing, or older than a source.
is_stale() {
    [ ! -x "$program" ] || [ -n "$(find "$root/crates" "$root/crates.txt" -name out -prune -o -type f -newer "$program" -print | head -n 1)" ]
}

# Proves the replay and builds it; what rt says goes to standard error.
build() {
    if ! command -v rt > /dev/null; then
        echo "replay.sh: to prove and build the replay, the Rattle toolchain is needed: the command rt, on the PATH" >&2
        exit 2
    fi
    echo "replay.sh: proving the replay; the first time this takes minutes" >&2
    if ! "$root/build.sh" replay; then
        echo "replay.sh: the replay was not proved (see above), so no file was replayed" >&2
        exit 2
    fi
}

# --- the rules by number, as document 01 and its change requests list them ---

# rule_name NUMBER: the rule's name; nothing where there is no such rule. A row is the first and
# the last number of a family and its name; in a family the names are counted from 0.
rule_name() {
    while read -r first last name; do
        if [ "$1" -lt "$first" ] || [ "$1" -gt "$last" ]; then continue; fi
        [ "$first" -eq "$last" ] || name=$name$(($1 - first))
        echo "$name"
    done << 'RULES'
1 1 FLATTEN
2 2 ADDSID
3 3 MULSID
4 4 ADDS0
5 7 MULS
10 16 CONJ
20 32 DOT
33 34 DELTA
40 42 SCR
43 44 SCRK
45 46 SCRB
47 48 SCRO
50 50 ADDID
51 54 ADD
55 55 ADDK0
56 56 ADDB0
57 57 ADDO0
60 63 ADJ
64 66 ADJK
67 69 ADJB
70 73 ADJO
80 83 TSR
84 86 TSRK
87 89 TSRB
90 93 TSRO
100 111 MULK
120 131 MULB
140 145 OUTER
150 162 MULO
170 170 SWAP
180 183 SUM
190 191 UNIT
RULES
}

# --- looking into a file ---

# line FILE NUMBER: that line.
line() {
    sed -n "$2{p;q;}" < "$1"
}

# shown FILE NUMBER: that line, cut at 60 characters, a byte that cannot be shown as '?'.
shown() {
    line "$1" "$2" | tr -c ' -~\n' '?' | sed 's/^\(.\{60\}\)..*/\1 ../'
}

# has_line FILE NUMBER: whether the file has that line, finished or not.
has_line() {
    [ "$(line "$1" "$2" | wc -c)" -gt 0 ]
}

# has_bad_byte FILE NUMBER: whether that line has a byte other than 32 to 126.
has_bad_byte() {
    [ "$(line "$1" "$2" | tr -d ' -~\n' | wc -c)" -gt 0 ]
}

# step_line FILE STEP: the four numbers of that step, which are rule, place, i and j.
step_line() {
    sed -n 's/^step=[LR] //p' < "$1" | sed -n "$2{p;q;}"
}

# token FILE SIDE OFFSET: the token at that offset of the left or right side as the file has it.
token() {
    sed -n "s/^$2=//p" < "$1" | cut -d ' ' -f $(($3 + 1))
}

# --- answers in words ---

# field NAME: that field of the answer.
field() {
    echo "$answer" | sed -n "s/^$1=//p"
}

side_name() {
    case $1 in
        1) echo left ;;
        2) echo right ;;
    esac
}

# steps COUNT: so many steps.
steps() {
    if [ "$1" -eq 1 ]; then echo "1 step"; else echo "$1 steps"; fi
}

# about_line FILE CODE LINE: what codes 3 to 9 say of a line.
about_line() {
    case $2 in
        3)
            if [ ! -s "$1" ]; then
                echo "the file is empty"
            elif has_bad_byte "$1" "$3"; then
                echo "line $3 has a byte other than LF and 32 to 126, shown as ?"
            else
                echo "line $3, the last, does not end in LF"
            fi
            ;;
        4)
            if has_line "$1" "$3"; then
                echo "line $3: the key is missing or out of order, or the line comes after end"
            else
                echo "line $3: the file ends before its end line"
            fi
            ;;
        5) echo "line $3: the value is empty or not of the form" ;;
        6) echo "line $3: one basis, var or step line too many" ;;
        7) echo "line $3: the declaration is not exactly the indices wanted, or breaks a limit or a name" ;;
        8) echo "line $3: the term has an unknown head, n = 0, a wrong end, too many words, too great a depth or an undeclared name" ;;
        9) echo "line $3: the number differs from that of the steps, $(head -n "$3" < "$1" | grep -c '^step=')" ;;
    esac
}

# about_bound FILE SIDE OFFSET: what code 13 says of a word.
about_bound() {
    token=$(token "$1" "$2" "$3")
    case $token in
        27) echo "the sum over a basis at word $3 of the $2 side is the ninth nested; at most 8 are" ;;
        *) echo "the bound basis at word $3 of the $2 side (token $token) has no such sum over a basis around it" ;;
    esac
}

# about_step FILE CODE SIDE STEP: what codes 20 to 23 say of a step.
about_step() {
    read -r rule place i j << STEP
$(step_line "$1" "$4")
STEP
    name=$(rule_name "$rule")
    here="step $4 on the $3, rule $rule${name:+ ($name)} at word $place:"
    case $2 in
        20) echo "$here there is no such rule" ;;
        21) echo "$here the place is not below that side's length in words, $(field "$3")" ;;
        22)
            if [ "$i $j" = "0 0" ]; then with=; else with=" with i $i, j $j"; fi
            echo "$here the part there is no instance of the rule$with"
            ;;
        23) echo "$here the result would pass 255 children, 4,096 words or 64 deep" ;;
    esac
}

# in_words FILE: the answer as a sentence, and the line that it is about.
in_words() {
    code=$(field code)
    side=$(side_name "$(field side)")
    step=$(field step)
    at=$(field at)
    case $code in
        0) echo "accepted: after $(steps "$step") both sides are the same, so they stand for the same matrix" ;;
        1) echo "refused: a work slice is not 4,096 words long, a fault of the calling program" ;;
        2) echo "refused: the file has over 65,536 bytes" ;;
        [3-9])
            echo "refused: $(about_line "$1" "$code" "$at")"
            if has_line "$1" "$at"; then printf '    %s\n' "$(shown "$1" "$at")"; fi
            ;;
        10) echo "refused: the $side side has no type: the part at word $at (token $(token "$1" "$side" "$at")) has none" ;;
        11) echo "refused: the $side side is an index or a basis; a scalar, ket, bra or operator is wanted" ;;
        12) echo "refused: the two sides have different types" ;;
        13) echo "refused: $(about_bound "$1" "$side" "$at")" ;;
        2[0-3]) echo "refused: $(about_step "$1" "$code" "$side" "$step")" ;;
        30) echo "refused: no step is wrong, but after $(steps "$step") the two sides differ, first at word $at" ;;
        *) echo "refused: an answer that this script does not know" ;;
    esac
}

# replay FILE: its name, the six lines, the sentence. Fails unless it was accepted.
replay() {
    printf '%s\n' "$1"
    if [ ! -f "$1" ] || [ ! -r "$1" ]; then
        echo "not replayed: the file cannot be read"
        return 1
    fi
    if ! answer=$("$program" < "$1"); then
        echo "not replayed: the program failed"
        return 1
    fi
    echo "$answer"
    in_words "$1"
    [ "$(field code)" = 0 ]
}

# --- the command ---

if [ $# -eq 0 ]; then
    echo "usage: ./replay.sh FILE.." >&2
    exit 2
fi
if is_stale; then build; fi
# Lines are looked at byte by byte.
LC_ALL=C
export LC_ALL
status=0
gap=
for file; do
    printf %s "$gap"
    gap='
'
    replay "$file" || status=1
done
exit $status
