#!/bin/sh
# Tries the edits of checks/edits/, which the gate leaves out for the sake of its time: each stands for a while in the crate's must-fail/, as
# the gate wants it, and has to be refused. Begins with what `rt check` kept.
#
#     checks/edits.sh            of the crates that changed since they last passed, in src/, specs/ or proofs/, in their edits, or below them
#     checks/edits.sh CRATE..    of these crates
#     checks/edits.sh --all      of all crates
#     checks/edits.sh --list     tries none, and prints the crates that changed
#
# What passed is written into checks/edits/passed.txt, a line a crate: a digest of the crate and of those below it. Ends with status 1 where an
# edit isn't refused. RT=FILE names another rt.
set -u
cd "$(dirname "$0")/.." || exit 1
RT=${RT:-rt}
PASSED=checks/edits/passed.txt

stand_by=
take_back() {
    for file in $stand_by; do rm -f "$file"; done
    stand_by=
}
trap take_back EXIT
trap 'exit 1' HUP INT TERM

with_below() { # CRATE: it and all crates below it, in the order of crates.txt
    awk -v wanted="$1" -F: '
        { sub(/#.*/, "") }
        NF { split($1, name, " "); order[++count] = name[1]; below[name[1]] = $2 }
        END {
            need[wanted] = 1
            for (i = count; i > 0; i--) if (order[i] in need) {
                parts = split(below[order[i]], names, " ")
                for (j = 1; j <= parts; j++) need[names[j]] = 1
            }
            for (i = 1; i <= count; i++) if (order[i] in need) print order[i]
        }' crates.txt
}

digest() { # CRATE: of what its proofs read, and of its edits
    {
        grep "^$1[ :]" crates.txt
        for crate in $(with_below "$1"); do
            find "crates/$crate/src" "crates/$crate/specs" "crates/$crate/proofs" -type f 2>/dev/null
        done
        find "checks/edits/$1" -type f
    } | LC_ALL=C sort | while IFS= read -r line; do
        if [ -f "$line" ]; then sha256sum "$line"; else echo "$line"; fi
    done | sha256sum | cut -d' ' -f1
}

is_passed() { # CRATE
    [ -f "$PASSED" ] && grep -qx "$1 $(digest "$1")" "$PASSED"
}

put_passed() { # CRATE DIGEST, or no digest where it didn't pass
    { [ ! -f "$PASSED" ] || grep -v "^$1 " "$PASSED"; [ $# -lt 2 ] || echo "$1 $2"; } | LC_ALL=C sort >"$PASSED.new"
    mv "$PASSED.new" "$PASSED"
}

choice=changed
case ${1:-} in
    --all | --list) choice=${1#--}; shift ;;
    -*) echo "edits.sh: no such option: $1" >&2; exit 2 ;;
    ?*) choice=named ;;
esac
for crate; do
    [ -d "checks/edits/$crate" ] || { echo "edits.sh: checks/edits/ has no crate $crate" >&2; exit 2; }
done

status=0
for folder in checks/edits/*/; do
    crate=$(basename "$folder")
    case $choice in
        named) case " $* " in *" $crate "*) ;; *) continue ;; esac ;;
        changed | list) is_passed "$crate" && continue ;;
    esac
    if [ "$choice" = list ]; then
        echo "$crate"
        continue
    fi
    for edit in "$folder"*.edit; do
        copy=crates/$crate/must-fail/$(basename "$edit")
        [ -e "$copy" ] && { echo "edits.sh: $copy is in both folders" >&2; exit 1; }
        mkdir -p "crates/$crate/must-fail"
        stand_by="$stand_by $copy"
        cp "$edit" "$copy"
    done
    was=$(digest "$crate")
    if "$RT" must-fail "$crate"; then
        put_passed "$crate" "$was"
    else
        put_passed "$crate"
        status=1
    fi
    take_back
    rmdir "crates/$crate/must-fail" 2>/dev/null
done
exit "$status"
