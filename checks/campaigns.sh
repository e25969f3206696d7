#!/bin/sh
# Whether campaigns tell the same however they are cut, broken off or repeated, and whether scripts keep to their image.
#
#     checks/campaigns.sh [PROGRAM ROWS]..
#
# Of each program, over its first rows: the verdicts of `campaign.sh` on each class are those of `vcp inject` on slices of another size, and its totals count
# them; a campaign that was ended in its midst, or that lost parts, gives the same bytes when it is called again; and where an input is added to the program, the
# script of the old image is refused, while the same names give the same verdicts. Without words it takes the programs of examples/ that have rows.
# CYCLES=N before it takes N rows (4), HOSTS=FILE judges the class bits on the machines that FILE names for `parallel`, too, and VCP=FILE and VCP_STUDY=FILE
# take other programs than the built ones. Its status is 1 where something differs.
top=$(CDPATH='' cd -- "$(dirname -- "$0")/.." && pwd) || exit 1
VCP=${VCP:-$top/crates/vcp/out/vcp}
VCP_STUDY=${VCP_STUDY:-$top/crates/vcp_study/out/vcp_study}
export VCP VCP_STUDY
cycles=${CYCLES:-4}
case ${HOSTS:=} in '' | /*) ;; *) HOSTS=$PWD/$HOSTS ;; esac
slice=3000
work=$(mktemp -d) || exit 1
trap 'rm -rf "$work"' EXIT
status=0

differs() {
    echo "campaigns: $program: $*"
    status=1
}

# A campaign that judges all, whether it finds faults that aren't seen (9) or none (0); what it prints stands in `told` and `log`.
campaign() {
    "$top/campaign.sh" "$@" >told 2>log
    case $? in 0 | 9) ;; *) return 1 ;; esac
}

# The last campaign's folder.
folder() {
    ls -dt campaign.*/ | head -n 1
}

# The verdicts on a class, slice by slice, with the lines that they have in the whole script, and no totals.
in_slices() { # CLASS OVER
    number=$("$VCP_STUDY" sites image "$2" "$1" --count) || return 1
    from=0
    while [ "$from" -lt "$number" ]; do
        "$VCP_STUDY" sites image "$2" "$1" "$from" $slice >slice.faults
        "$VCP" inject image rows slice.faults | awk -v from="$from" '$1 == "faults" { next } { print ($1 + from) substr($0, index($0, " ")) }'
        from=$((from + slice))
    done
}

# The totals count the verdicts, which stand before them.
counted() { # VERDICTS
    awk '
        $1 == "faults" { ok = $2 == NR - 1; for (i = 3; i < NF; i += 2) ok = ok && $(i + 1) == n[$i] + 0; next }
        { n[$2]++ }
        END { exit !ok }
    ' "$1"
}

each_class() {
    over=$(($(wc -l <rows) - 1))
    for class in bits flips stale skip from operator; do
        case $class in flips) behind=rows ;; *) behind=$over ;; esac
        campaign image rows $class || differs "$class isn't judged: $(cat log)"
        in_slices $class $behind >wanted
        grep -v '^faults ' "$(folder)verdicts" | cmp -s - wanted || differs "$class has other verdicts in slices of $slice"
        counted "$(folder)verdicts" || differs "the totals of $class don't count its verdicts"
    done
}

# A campaign on other machines ends as one here.
on_hosts() {
    campaign image rows bits || differs "bits isn't judged: $(cat log)"
    here_told=$(folder)
    cp "$here_told/verdicts" verdicts.here && rm -r "$here_told"
    campaign image rows bits --sshloginfile "$HOSTS" || differs "bits isn't judged on other machines: $(cat log)"
    cmp -s "$here_told/verdicts" verdicts.here || differs "a campaign on other machines gives other bytes"
}

# A campaign that is ended in its midst, and one that lost parts, end as the whole one.
broken_off() {
    campaign image rows bits || differs "bits isn't judged: $(cat log)"
    whole=$(folder)
    cp "$whole/verdicts" verdicts.whole && cp "$whole/tables" tables.whole
    rm -r "$whole"
    timeout 0.3 "$top/campaign.sh" image rows bits >told 2>log
    campaign image rows bits || differs "bits isn't judged: $(cat log)"
    cmp -s "$whole/verdicts" verdicts.whole && cmp -s "$whole/tables" tables.whole || differs "a campaign that was ended gives other bytes"
    rm -f "$whole"/parts/000000.verdicts
    campaign image rows bits || differs "bits isn't judged: $(cat log)"
    cmp -s "$whole/verdicts" verdicts.whole && cmp -s "$whole/tables" tables.whole || differs "a campaign that lost a part gives other bytes"
}

# Faults of each output by names.
named() {
    "$VCP" exec image rows | sed -n '1s/^cycle,//p' | tr ',' '\n' | while read -r name; do
        echo "add 1 to OUT $name cycle 0"
        echo "skip OUT $name cycle 1"
        echo "flip OUT $name cycle 1 bit 0"
    done
}

# Verdicts without what the number of an operation says: of residues their difference alone, and no operation at which a run stopped.
unnumbered() {
    awk '$2 == "refused" { $6 -= $8; NF = 6 } $2 == "stopped" { $4 = "" } { print }'
}

# The same program with an input more: its image refuses the old script, and the same names give the same verdicts.
with_input() {
    sed 's/VAR_INPUT/VAR_INPUT added_by_the_check : BOOL;/; t done; b; :done n; b done' source >added.st
    "$VCP" compile added.st >added.img || differs "no input can be added"
    sed '1s/$/,added_by_the_check/; 2,$s/$/,0/' rows >added.csv
    "$VCP_STUDY" sites image "$over" skip >old.faults
    if campaign added.img added.csv old.faults || ! grep -q 'another image' log; then
        differs "a script of another image is taken"
    fi
    named >names
    for each in image added.img; do
        "$VCP_STUDY" script "$each" names >"$each.faults" || differs "names aren't found in $each"
    done
    "$VCP" inject image rows image.faults | unnumbered >verdicts.image
    "$VCP" inject added.img added.csv added.img.faults | unnumbered | cmp -s - verdicts.image || differs "the same names have other verdicts when an input is added"
}

one_program() { # PROGRAM ROWS
    program=$1
    rm -rf "$work/now" && mkdir "$work/now" && cp "$1" "$work/now/source" && tr -d '\r' <"$2" | grep -v '^$' | head -n $((cycles + 1)) >"$work/now/rows"
    cd "$work/now" || exit 1
    if "$VCP" compile source >image; then
        each_class
        [ -z "$HOSTS" ] || on_hosts
        broken_off
        with_input
    else
        differs "it isn't compiled"
    fi
    cd "$here" || exit 1
}

here=$PWD
if [ $# -eq 0 ]; then
    for source in "$top"/examples/*.st; do
        [ -e "${source%.st}.csv" ] && set -- "$@" "$source" "${source%.st}.csv"
    done
fi
while [ $# -ge 2 ]; do
    case $1 in /*) source=$1 ;; *) source=$here/$1 ;; esac
    case $2 in /*) rows=$2 ;; *) rows=$here/$2 ;; esac
    one_program "$source" "$rows"
    shift 2
done
[ "$status" -ne 0 ] || echo "campaigns: all verdicts are the same however they are cut, and scripts keep to their image"
exit "$status"
