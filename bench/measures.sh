#!/bin/sh
# The table of measures of docs/MEASURES.md: seconds of the processor and peak memory of commands of the built programs, on loads that it makes itself.
#
#     bench/measures.sh            prints the table, with the commit, the crates, the toolchain and the processors
#     bench/measures.sh --write    puts it into docs/MEASURES.md, in the place of the one there
#
# Of each command the run that took the least of the processor is taken, of RUNS runs, else of 3. With VCP=FILE and VCP_STUDY=FILE before it other programs
# than the built ones are measured. It needs `awk`, `git`, Python 3 for the campaign, and /usr/bin/time. It is no part of the gate: times depend on the machine
# and on what else it does.
top=$(CDPATH='' cd -- "$(dirname -- "$0")/.." && pwd) || exit 1
vcp=${VCP:-$top/crates/vcp/out/vcp}
study=${VCP_STUDY:-$top/crates/vcp_study/out/vcp_study}
[ -x "$vcp" ] && [ -x "$study" ] && [ -x /usr/bin/time ] || {
    echo "measures: vcp, vcp_study or /usr/bin/time isn't there" >&2
    exit 1
}
work=$(mktemp -d) || exit 1
trap 'rm -rf "$work"' EXIT
examples=$top/examples
export VCP="$vcp" VCP_STUDY="$study"

# Loads: rows, programs, images and scripts, each of them made by a rule.
make_loads() {
    cd "$work" || return 1
    awk 'BEGIN { print "x"; for (i = 0; i < 1000000; i++) print i % 2001 - 1000 }' >add.csv
    awk 'NR == 1 { print; next } { row[n++] = $0 } END { for (i = 0; i < 100000; i++) print row[i % n] }' "$examples/crossing.csv" >crossing.csv
    head -n 1001 crossing.csv >crossing_1000.csv
    awk 'NR == 1 { print; next } { row[n++] = $0 } END { for (i = 0; i < 1000; i++) print row[i % n] }' "$examples/two_tracks.csv" >tracks_1000.csv
    # A program of 1,000 statements over two inputs, with every kind of operation but conversions.
    awk 'BEGIN {
        printf "PROGRAM p\nVAR_INPUT a, b : DINT; END_VAR\nVAR_OUTPUT y : DINT; END_VAR\nVAR v0"
        for (i = 1; i < 100; i++) printf ", v%d", i
        print " : DINT; END_VAR"
        for (i = 0; i < 1000; i++) {
            p = i * 7 % 100; q = i * 13 % 100; r = i * 29 % 100
            if (i % 6 == 0) printf "v%d := (v%d + a) MOD 1000;\n", p, q
            if (i % 6 == 1) printf "v%d := (v%d - b) MOD 1010;\n", p, q
            if (i % 6 == 2) printf "v%d := (v%d * v%d) MOD 1020;\n", p, q, r
            if (i % 6 == 3) printf "IF v%d < v%d THEN v%d := (v%d + 1) MOD 1000; END_IF;\n", q, r, p, p
            if (i % 6 == 4) printf "v%d := SEL(v%d = v%d, v%d, a MOD 1030);\n", p, q, r, q
            if (i % 6 == 5) printf "v%d := LIMIT(-500, v%d, 500);\n", p, q
        }
        print "y := v0 + v1 + v2 + v3;\nEND_PROGRAM" }' >thousand.st
    awk 'BEGIN { print "a,b"; for (i = 0; i < 1000; i++) print i * 37 % 2001 - 1000 "," i * 91 % 2001 - 1000 }' >thousand.csv
    # A source of a mebibyte, and a CASE of as many ranges as the Size allows, and one of as many as `from` needs to have three million faults.
    awk 'BEGIN { printf "PROGRAM p VAR x : INT; END_VAR "; for (i = 0; i < 87000; i++) printf "x := x + 1; "; print "END_PROGRAM" }' >large.st
    for count in 9360 428; do
        awk -v count="$count" 'BEGIN {
            printf "PROGRAM p VAR_INPUT x : DINT; END_VAR VAR_OUTPUT y : BOOL; END_VAR CASE x OF "
            for (i = 0; i < count; i++) printf "%s%d..%d", i ? ", " : "", 3 * i, 3 * i + 1
            print ": y := TRUE; END_CASE; END_PROGRAM" }' >ranges_$count.st
    done
    awk 'BEGIN { print "cycle,x"; for (i = 0; i < 1000; i++) print i "," i * 37 % 2001 - 1000; print "end 1000" }' >run.txt
    for name in thousand ranges_9360 ranges_428; do
        "$vcp" compile $name.st >$name.img || return 1
    done
    "$vcp" compile "$examples/crossing.st" >crossing.img && "$vcp" compile "$examples/two_tracks.st" >tracks.img || return 1
    # 10,000 faults each, about a third of the way through the rows.
    "$study" sites crossing.img 1000 bits 6000000 10000 >crossing.faults && "$study" sites tracks.img 1000 bits 20000000 10000 >tracks.faults &&
        "$study" sites crossing.img 8 bits 60000 10000 >few.faults && "$study" sites thousand.img 2 skip 0 10000 >thousand.faults
}

# A row: the command's words, what it is on, and the command with its program.
row() {
    words=$1 on=$2
    shift 2
    : >"$work/times"
    for _ in $(seq "${RUNS:-3}"); do
        /usr/bin/time -a -o "$work/times" -f '%U %S %M' "$@" >"$work/printed" 2>"$work/said"
        status=$?
        case $status in 0 | 1 | 9) ;; *)
            echo "measures: \`$words\` ended with status $status: $(head -n 1 "$work/said")" >&2
            exit 1
            ;;
        esac
        sed -i '/^Command exited/d' "$work/times"
    done
    sort -n "$work/times" | awk -v words="$words" -v on="$on" '
        NR == 1 || $1 + $2 < least { least = $1 + $2; memory = $3 }
        END { printf "| `%s` | %s | %s | %d MB |\n", words, on, least < 0.01 ? "below 0.01" : sprintf("%.2f", least), (memory + 512) / 1024 }'
}

table() {
    clean=$(git -C "$top" status --porcelain 2>/dev/null | head -n 1)
    echo "Commit $(git -C "$top" rev-parse --short=8 HEAD 2>/dev/null || echo unknown)${clean:+, changed}; $(grep -c '^[a-z]' "$top/crates.txt") crates;" \
        "\`$(rt version 2>/dev/null | head -n 1 || true)\`; $(nproc) processors, load $(cut -d ' ' -f 1 /proc/loadavg). The least of ${RUNS:-3} runs."
    echo
    echo "| command | on | seconds | memory |"
    echo "|---|---|---|---|"
    row 'run' '1,000,000 rows of y := x + 1' "$vcp" run "$examples/add.st" add.csv
    row 'plain' 'the same' "$vcp" plain "$examples/add.st" add.csv
    row 'run' '100,000 rows of the level crossing' "$vcp" run "$examples/crossing.st" crossing.csv
    row 'plain' 'the same' "$vcp" plain "$examples/crossing.st" crossing.csv
    row 'exec' "1,000 rows of 1,000 statements, $("$vcp" list thousand.img | grep -c .) operations" "$vcp" exec thousand.img thousand.csv
    row 'plain' 'the same' "$vcp" plain thousand.st thousand.csv
    row 'demo 1' '1,000 rows of the made program 1' "$vcp" demo 1
    row 'check' 'a source of one mebibyte' "$vcp" check large.st
    row 'compile' "a CASE of 9,360 ranges, $("$vcp" list ranges_9360.img | grep -c .) operations" "$vcp" compile ranges_9360.st
    row 'list' 'its image' "$vcp" list ranges_9360.img
    row 'widen' 'its image' "$vcp" widen ranges_9360.img
    row 'audit M 127' 'its image' "$vcp" audit ranges_9360.img 127
    row 'inject' '10,000 faults of the level crossing, each a group, 1,000 rows' "$vcp" inject crossing.img crossing_1000.csv crossing.faults
    row 'inject' '10,000 faults of the crossing with two tracks, 1,000 rows' "$vcp" inject tracks.img tracks_1000.csv tracks.faults
    row 'inject' "$(grep -c '^skip' thousand.faults) faults of the program of 1,000 statements, 1,000 rows" \
        "$vcp" inject thousand.img thousand.csv thousand.faults
    row 'pairs' '10,000 faults of the level crossing, 8 rows' "$vcp" pairs crossing.img "$examples/crossing.csv" 1 few.faults
    row 'vcp_study sites' '10,000 faults of the level crossing' "$study" sites crossing.img 1000 bits 6000000 10000
    for class in add rest operator; do
        row "vcp_study cover M 8 $class" "the CASE of 9,360 ranges" "$study" cover ranges_9360.img 8 $class
    done
    for class in from late; do
        row "vcp_study cover M 8 $class" "a CASE of 428 ranges, $("$vcp" list ranges_428.img | grep -c .) operations" "$study" cover ranges_428.img 8 $class
    done
    row 'vcp_study ranges' 'the crossing with two tracks' "$study" ranges tracks.img
    row 'vcp_study ranges' 'the CASE of 9,360 ranges' "$study" ranges ranges_9360.img
    row 'vcp_study graph M 0' 'the CASE of 9,360 ranges' "$study" graph ranges_9360.img 0
    row 'vcp_study dot M 0' 'the CASE of 9,360 ranges' "$study" dot ranges_9360.img 0
    row 'vcp_study waves' '1,000 cycles of one column' "$study" waves run.txt
    row 'vcp_tools campaign M ROWS bits' "the level crossing, 8 rows: $("$study" sites crossing.img 8 bits --count) faults, all processes" \
        sh -c "rm -rf kept && '$top/vcp_tools' campaign crossing.img '$examples/crossing.csv' bits --out kept --quiet"
}

make_loads || exit 1
table >"$work/table" || exit 1
if [ "$1" = --write ]; then
    awk -v file="$work/table" '
        /^<!-- bench\/measures.sh -->$/ { print; while ((getline line <file) > 0) print line; inside = 1; next }
        /^<!-- end -->$/ { inside = 0 }
        !inside { print }' "$top/docs/MEASURES.md" >"$work/page" && cp "$work/page" "$top/docs/MEASURES.md"
else
    cat "$work/table"
fi
