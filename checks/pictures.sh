#!/bin/sh
# Draws the level crossing anew: its run on its rows, docs/crossing_waves.svg, its graph across at most two cycle borders,
# docs/crossing_graph.svg, and its graph by the verdicts on examples/crossing.faults, docs/crossing_faults.svg. With --check it compares them with what
# it draws, and its status is 1 where they differ. With VCP=FILE and VCP_STUDY=FILE before it other programs than the built ones are taken.
top=$(CDPATH='' cd -- "$(dirname -- "$0")/.." && pwd) || exit 1
vcp=${VCP:-$top/vcp}
draw=${VCP_STUDY:-$top/vcp_study}
work=$(mktemp -d) || exit 1
trap 'rm -rf "$work"' EXIT
"$vcp" run "$top/examples/crossing.st" "$top/examples/crossing.csv" >"$work/run.csv" || exit 1
"$draw" waves "$work/run.csv" >"$work/crossing_waves.svg" || exit 1
"$vcp" compile "$top/examples/crossing.st" >"$work/crossing.img" || exit 1
"$draw" graph "$work/crossing.img" 2 >"$work/crossing_graph.svg" || exit 1
"$vcp" inject "$work/crossing.img" "$top/examples/crossing.csv" "$top/examples/crossing.faults" >"$work/verdicts.txt" || exit 1
"$draw" faults "$work/crossing.img" "$top/examples/crossing.faults" "$work/verdicts.txt" >"$work/crossing_faults.svg"
# Some faults of that script aren't seen: status 9, and 1 of a vcp_study from before that status.
case $? in 1 | 9) ;; *) exit 1 ;; esac
if [ "${1:-}" = --check ]; then
    for picture in crossing_waves.svg crossing_graph.svg crossing_faults.svg; do
        cmp "$work/$picture" "$top/docs/$picture" || exit 1
    done
    echo "pictures: docs/ has what is drawn"
else
    cp "$work/crossing_waves.svg" "$work/crossing_graph.svg" "$work/crossing_faults.svg" "$top/docs/"
fi
