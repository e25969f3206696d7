#!/bin/sh
# The machine's stack that the built program needs: for each of these programs the least `ulimit -s`, in steps of 16 KB,
# with which `check`, `format`, `plain` and `run` end by a status and aren't killed by a signal.
here=$(CDPATH='' cd -- "$(dirname -- "$0")" && pwd) || exit 1
program=${VCP:-$here/../crates/vcp/out/vcp}
work=$(mktemp -d) || exit 1
trap 'rm -rf "$work"' EXIT
[ -x "$program" ] || "$here/../vcp" check "$here/../examples/add.st" >/dev/null || exit 1

# A text so many times.
repeated() {
    awk -v count="$1" -v text="$2" 'BEGIN { for (i = 0; i < count; i++) printf "%s", text }'
}

# A program over these declarations with this body.
source_of() {
    echo "PROGRAM p VAR $2 END_VAR $3 END_PROGRAM" >"$work/$1.st"
}

# Whether the program ends by a status with so many KB of stack: one that is killed by a signal has 128 and more.
ends() {
    size=$1
    shift
    (ulimit -s "$size" && exec "$program" "$@" >/dev/null 2>&1 </dev/null)
    [ $? -lt 128 ]
}

# The least stack in KB with which the program ends. It stands in a subshell, whose words on killed processes are left out.
least() {
    exec 2>/dev/null
    low=0
    high=8192
    while [ $((high - low)) -gt 16 ]; do
        middle=$(((low + high) / 32 * 16))
        if ends "$middle" "$@"; then high=$middle; else low=$middle; fi
    done
    echo "$high"
}

measure() {
    file=$work/$1.st
    printf '%-40s %6s %6s %6s %6s   %s\n' "$2" "$(least check "$file")" "$(least format "$file")" \
        "$(least plain "$file" --cycles 1)" "$(least run "$file" --cycles 1)" "$("$program" check "$file" 2>&1 | sed "s:.*/::")"
}

source_of least "x : INT;" "x := 1;"
source_of ifs "b : BOOL; x : INT;" "$(repeated 64 'IF b THEN ') x := 1; $(repeated 64 'END_IF; ')"
source_of cases "x : INT;" "$(repeated 64 'CASE x OF 0: ') x := 1; $(repeated 64 'END_CASE; ')"
source_of nots "b : BOOL;" "b := $(repeated 64 'NOT ') b;"
source_of calls "x : INT;" "x := $(repeated 64 'MIN(1, ') x $(repeated 64 ')');"
source_of chain "x : INT;" "x := x $(repeated 64 '+ 1');"
source_of mixed "b : BOOL; x : INT;" "$(repeated 32 'IF b THEN ') x := $(repeated 32 'MIN(1, ') x $(repeated 32 ')'); $(repeated 32 'END_IF; ')"
source_of many "x : INT;" "$(repeated 30000 'x := 1; ')"
source_of large "x : INT;" "$(repeated 87000 'x := x + 1; ')"

printf '%-40s %6s %6s %6s %6s   %s\n' "least stack, KB" check format plain run "what check prints"
measure least "one assignment"
measure ifs "64 nested IFs"
measure cases "64 nested CASEs"
measure nots "64 NOTs before a name"
measure calls "64 nested calls of MIN"
measure chain "a sum of 65 terms"
measure mixed "32 nested calls in 32 nested IFs"
measure many "30,000 assignments"
measure large "a source of one mebibyte"
