#!/bin/sh
# check.sh: whether the files of this installation are those that were put here: each has the digest of the list, none is lacking, and no other file stands
# among them. It needs neither the sources nor Python. The status is 9 where something differs. The digest of the list stands for the whole.
cd "$(dirname -- "$(readlink -f -- "$0")")/../.." || exit 2
list=share/vcp/files.txt
[ -r "$list" ] || {
    echo "check.sh: $list isn't there" >&2
    exit 2
}
status=0
sha256sum -c "$list" 2>/dev/null | grep -v ': OK$' && status=9
listed=$(mktemp) || exit 2
trap 'rm -f "$listed"' EXIT
sed 's/^[0-9a-f]*  //' "$list" >"$listed"
find share/vcp -type f ! -path "$list" | grep -v -x -F -f "$listed" | sed 's/$/: not in the list/' | grep . && status=9
[ "$status" -ne 0 ] || echo "all $(($(wc -l <"$list"))) files are as the list says, whose digest is $(sha256sum <"$list" | cut -c 1-64)"
sed -n 's/^\(commit\|vcp\|vcp_study\|gate\|toolchain recorded\): /    &/p' share/vcp/evidence/summary.txt
exit "$status"
