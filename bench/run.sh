#!/bin/sh
# Seconds of the processor, in the program and in the system, and peak memory of `vcp run` and `vcp plain`, beside those of a plain Rust program (coded.rs) that does the same without
# a contract: in coded words split on 128 bits, or on 64 where a word has no more, or on plain values alone. All must print the same.
# With VCP=FILE before it another program than the built one is measured; with RUNS=N the least of N runs is taken, else of 3.
here=$(CDPATH='' cd -- "$(dirname -- "$0")" && pwd) || exit 1
vcp=${VCP:-$here/../vcp}
work=$(mktemp -d) || exit 1
trap 'rm -rf "$work"' EXIT
rustc --edition 2024 -O -o "$work/loads" "$here/loads.rs" || exit 1
rustc --edition 2024 -O -o "$work/coded" "$here/coded.rs" || exit 1
"$work/loads" "$work" || exit 1
cp "$here/../examples/add.st" "$here/../examples/crossing.st" "$work" || exit 1
"$vcp" run "$work/add.st" "$here/../examples/in.csv" >/dev/null || exit 1

# The operations that `run` carries, without signatures and corrections, after the line that the run begins with.
list() {
    "$vcp" compile "$1.st" >"$1.img" || exit 1
    head -n 1 "$1.run.out" >"$1.list"
    "$vcp" list "$1.img" | sed 's/ sig [0-9]* cor [0-9]*//' >>"$1.list"
}

# Runs a command RUNS times, and keeps seconds and memory of each.
measure() {
    name=$1
    shift
    for _ in $(seq "${RUNS:-3}"); do
        /usr/bin/time -a -o "$work/$load.$name" -f '%U %S %e %M' "$@" >"$work/$load.$name.out" || exit 1
    done
    cmp "$work/$load.$name.out" "$work/$load.run.out" || exit 1
}

# The run of a command that took the least of the processor: both parts and their sum, the seconds from begin to end, the memory.
least() {
    awk '{ print $1 + $2, $0 }' "$work/$load.$1" | sort -n | head -n 1
}

# That of a command, and the ratio to another's.
tell() {
    echo "$(least "$1") $(least "$2")" | awk -v name="$1" -v other="$2" '{
        printf "  %-8s %6.2f s (%.2f in the program, %.2f in the system; %.2f from begin to end), %d kB, %.2f of %s\n",
            name, $1, $2, $3, $4, $5, $1 / $6, other
    }'
}

for load in add crossing straight; do
    measure run "$vcp" run "$work/$load.st" "$work/$load.csv"
    list "$work/$load"
    measure plain "$vcp" plain "$work/$load.st" "$work/$load.csv"
    for mode in long short uncoded; do
        measure "$mode" "$work/coded" "$work/$load.list" "$work/$load.csv" "$mode"
    done
    echo "$load: $(wc -l <"$work/$load.csv") records with the header, $(($(wc -l <"$work/$load.list") - 1)) operations"
    tell run short
    tell plain uncoded
    tell long short
    tell short short
    tell uncoded short
done
