#!/bin/sh
# Whether `run` and `plain` print for each program of examples/ what examples/README.md shows, and `il` where it is written in instructions, too:
# the first word of each line, and all of the last one. And whether each command that the manual pages have as an example ends with status 0. It prints
# the names of the programs and pages, and ends with status 1 at the first that differs. With VCP=FILE and VCP_STUDY=FILE before it other programs than the
# built ones are tried.
top=$(CDPATH='' cd -- "$(dirname -- "$0")/.." && pwd) || exit 1
vcp=${VCP:-$top/vcp}
study=${VCP_STUDY:-$top/crates/vcp_study/out/vcp_study}
work=$(mktemp -d) || exit 1
trap 'rm -rf "$work"' EXIT

# The lines that the section of a program shows, without the remarks.
shown() {
    awk -v head="## $1" '
        $0 == head { inside = 1; next }
        /^## / { inside = 0 }
        inside && /^    end / { print $1, $2 }
        inside && /^    [c0-9]/ { print $1 }' "$top/examples/README.md"
}

for name in crossing two_hand route points two_tracks odometer; do
    shown "$name" >"$work/shown"
    for command in plain run; do
        "$vcp" "$command" "$top/examples/$name.st" "$top/examples/$name.csv" >"$work/printed" || exit 1
        diff "$work/shown" "$work/printed" || exit 1
    done
    if [ -f "$top/examples/$name.il" ]; then
        "$vcp" il "$top/examples/$name.il" "$top/examples/$name.csv" >"$work/printed" || exit 1
        diff "$work/shown" "$work/printed" || exit 1
    fi
    echo "$name: $(wc -l <"$work/shown") lines"
done

# The examples of a manual page, in order, in a folder of their own; without `vcp_study` those of its page are left out.
mkdir "$work/bin" && printf '#!/bin/sh\nexec "%s" "$@"\n' "$vcp" >"$work/bin/vcp" && printf '#!/bin/sh\nexec "%s" "$@"\n' "$study" >"$work/bin/vcp_study" &&
    chmod +x "$work/bin/vcp" "$work/bin/vcp_study" || exit 1
for page in vcp vcp_study; do
    [ "$page" = vcp ] || [ -x "$study" ] || continue
    rm -rf "$work/here"
    mkdir "$work/here" && cp -R "$top/examples" "$work/here/examples" || exit 1
    sed -n '/^\.SH EXAMPLES/,/^\.fi/{/^\./!p;}' "$top/docs/$page.1" >"$work/commands"
    (cd "$work/here" && PATH=$work/bin:$PATH && export PATH && sh -e "$work/commands" >"$work/printed") || {
        echo "examples: one of docs/$page.1 ends with another status than 0"
        exit 1
    }
    echo "$page.1: $(wc -l <"$work/commands") commands"
done
