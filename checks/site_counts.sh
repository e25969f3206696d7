#!/bin/sh
# Whether `vcp_study sites` writes as many faults of each class as are counted here from what `vcp list` prints, whether parts of 7 are together the whole,
# whether `vcp inject` takes each script, and whether the flips are those of the words that `vcp trace` prints.
#
#     checks/site_counts.sh
#
# With VCP=FILE and VCP_STUDY=FILE before it other programs than the built ones are taken. Its status is 1 where something differs.
top=$(CDPATH='' cd -- "$(dirname -- "$0")/.." && pwd) || exit 1
vcp=${VCP:-$top/vcp}
study=${VCP_STUDY:-$top/vcp_study}
work=$(mktemp -d) || exit 1
trap 'rm -rf "$work"' EXIT

# count CYCLES CLASS: how many faults the class has in so many cycles, by a listing on standard input.
count() {
    awk -v cycles="$1" -v class="$2" '
        BEGIN {
            rank["INT"] = 1; rank["DINT"] = 2; rank["LINT"] = 3
            split("INPUT 0 CONST 0 LOAD 1 STORE 1 OUT 1 CONV 1 NEG 1 NOT 1 ADD 2 SUB 2 MUL 2 DIV 2 MOD 2 EQ 2 LT 2 AND 2 OR 2 XOR 2 SEL 3", word)
            for (i = 1; i in word; i += 2) {
                operands[word[i]] = word[i + 1]
                alike[word[i + 1]]++
            }
        }
        # the type of operand j of a kind, over operands of this type
        function taken(kind, j, from) {
            return kind ~ /^(NOT|AND|OR|XOR)$/ || (kind == "SEL" && j == 0) ? "BOOL" : from
        }
        # a value of the one type may stand for one of the other
        function fits(type, other) {
            return type == "BOOL" || other == "BOOL" ? type == other : rank[type] <= rank[other]
        }
        {
            type[$1] = $4
            bits += 124 * (1 + operands[$2])
            stale += operands[$2]
            skip++
            operator += alike[operands[$2]] - 1
            for (j = 0; j < operands[$2]; j++)
                for (r = 0; r < $1; r++)
                    from += fits(type[r], taken($2, j, $3)) && !($2 != "LOAD" && $(5 + j) == r)
        }
        END {
            found["bits"] = bits * cycles
            found["stale"] = stale * (cycles - 1)
            found["skip"] = skip * (cycles - 1)
            found["from"] = from * cycles
            found["operator"] = operator * cycles
            found["all"] = found["bits"] + found["stale"] + found["skip"] + found["from"] + found["operator"]
            print found[class]
        }'
}

# flips IMAGE CYCLES ROWS..: the lines of the flips in the first cycles of the run over ROWS, by the words that are printed of each cycle. A number of awk is
# exact below 2^53, and these words are smaller.
flips() {
    image=$1 cycles=$2 cycle=0
    shift 2
    while [ "$cycle" -lt "$cycles" ]; do
        "$vcp" trace "$image" "$@" "$cycle"
        cycle=$((cycle + 1))
    done | awk '
        function is_set(word, power,    part) {
            part = int(word / power)
            if (part > word / power) part--
            return part % 2 != 0
        }
        $1 == "released" { cycle++; next }
        { for (bit = 0; bit < 32; bit++) printf "result %d %d add %s%.0f\n", cycle, $1, is_set($3, 2 ^ bit) ? "-" : "", 2 ^ bit }'
}

status=0
for program in add counter crossing two_tracks; do
    source=$top/examples/$program.st
    [ "$program" = counter ] && {
        source=$work/counter.st
        printf 'PROGRAM c VAR_OUTPUT y : DINT; END_VAR VAR n : DINT; END_VAR n := n + 1; y := n; END_PROGRAM\n' >"$source"
    }
    image=$work/$program.img
    "$vcp" compile "$source" >"$image" || exit 1
    "$vcp" list "$image" >"$work/list" || exit 1
    for class in bits stale skip from operator all; do
        for cycles in 1 2 5; do
            wanted=$(count "$cycles" "$class" <"$work/list")
            found=$("$study" sites "$image" "$cycles" "$class" --count) || exit 1
            [ "$found" = "$wanted" ] || {
                echo "site_counts: $program: $class in $cycles cycles: $found faults, and $wanted are counted"
                status=1
            }
        done
    done
done

# The counter in three cycles: all classes whole, and in parts of 7.
image=$work/counter.img
"$study" sites "$image" 3 all >"$work/whole" || exit 1
sed 1q "$work/whole" >"$work/parts"
total=$("$study" sites "$image" 3 all --count) || exit 1
from=0
while [ "$from" -lt "$total" ]; do
    "$study" sites "$image" 3 all "$from" 7 >"$work/part" || exit 1
    sed 1d "$work/part" >>"$work/parts"
    from=$((from + 7))
done
cmp "$work/whole" "$work/parts" || status=1
[ "$(sort "$work/whole" | uniq -d)" = '' ] || {
    echo "site_counts: a fault comes twice"
    status=1
}
digest=$(sha256sum <"$image" 2>/dev/null | cut -d ' ' -f 1)
[ -z "$digest" ] || [ "$(sed 1q "$work/whole")" = "# sites all of $digest" ] || {
    echo "site_counts: the remark has another digest than $digest"
    status=1
}
"$vcp" inject "$image" --cycles 3 "$work/whole" | tail -n 1 | grep -q "^faults $total " || {
    echo "site_counts: inject takes other faults"
    status=1
}

# The flips of the counter, and those of the level crossing over its rows, which are more than a script may have.
flips "$image" 3 --cycles 3 >"$work/flips"
"$study" sites "$image" --cycles 3 flips | sed 1d | cmp - "$work/flips" || status=1
image=$work/crossing.img
rows=$top/examples/crossing.csv
cycles=$("$vcp" exec "$image" "$rows" | awk 'END { print $2 }')
flips "$image" "$cycles" "$rows" >"$work/flips"
for from in 0 10000; do
    "$study" sites "$image" "$rows" flips $from 10000 | sed 1d
done | cmp - "$work/flips" || status=1
[ "$("$study" sites "$image" "$rows" flips --count)" = "$(wc -l <"$work/flips" | tr -d ' ')" ] || {
    echo "site_counts: crossing: another number of flips than is counted"
    status=1
}
[ "$("$study" sites "$image" "$rows" flips 2>&1)" = "$image L9 Sites" ] || {
    echo "site_counts: crossing: so many flips are written in one script"
    status=1
}
[ "$status" = 0 ] && echo "site_counts: each class has as many faults as are counted, parts are the whole, and flips are those of the words"
exit "$status"
