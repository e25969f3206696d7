#!/bin/sh
# Whether the commands that documents show print what stands below them.
#
#     checks/transcripts.sh [DOCUMENT..]
#
# An indented block that begins with `$ ` is a transcript: each of its lines that begins so is a command, and what the command prints stands
# below it. The transcripts of a document are run in order by one shell, in a new folder with `vcp`, `vcp_study`, `vcp_tools`, `campaign.sh`,
# `examples/` and `checks/`. What is printed has to be the transcript; the first document that differs is shown as a diff, and the status is then 1.
#
# It uses the programs that are built, or those of VCP=FILE and VCP_STUDY=FILE, and builds none: without `vcp` nothing is run and the status is 0.
# Without `vcp_study` a transcript that runs it is left out, without Python 3 one that runs a script of checks/ or a tool, and without z3 one that asks it.
top=$(CDPATH='' cd -- "$(dirname -- "$0")/.." && pwd) || exit 1
vcp=${VCP:-$top/crates/vcp/out/vcp}
study=${VCP_STUDY:-$top/crates/vcp_study/out/vcp_study}
[ -x "$vcp" ] || {
    echo "transcripts: no program is built, so that none is run"
    exit 0
}
[ $# -gt 0 ] || set -- "$top/README.md" "$top"/docs/*.md "$top"/docs/dev/*.md "$top"/examples/*.md
work=$(mktemp -d) || exit 1
trap 'rm -rf "$work"' EXIT
command -v python3 >/dev/null 2>&1 && python=1 || python=0
asks='vcp_tools never|vcp_tools witness|vcp_tools rows reach'
python3 -c 'import sys; sys.path.append("/usr/lib/python3/dist-packages"); import z3' 2>/dev/null && solver=1 || solver=0
[ -x "$study" ] && studies=1 || studies=0

# The transcripts of a document, without their indentation, each ended by an empty line.
shown() {
    awk -v python="$python" -v studies="$studies" -v solver="$solver" -v asks="$asks" '
        function is_run() { return (python || block !~ /checks\/|vcp_tools/) && (studies || block !~ "vcp_study|campaign|" asks) && (solver || block !~ asks) }
        function flush() { if (block != "" && is_run()) print block; block = "" }
        /^    \$ / && !indented { inside = 1 }
        { indented = /^    / }
        inside && indented { block = block substr($0, 5) "\n"; next }
        { inside = 0; flush() }
        END { flush() }' "$1"
}

# The same as a shell's script that prints each command before it does it, and keeps the status of the one before.
script() {
    echo 'command_line() { status_before=$?; printf "%s\n" "$1"; return "$status_before"; }'
    awk '
        /^\$ / {
            quoted = $0
            gsub(/\047/, "\047\\\047\047", quoted)
            print "command_line \047" quoted "\047"
            print substr($0, 3)
        }
        $0 == "" { print "echo" }'
}

# Runs the transcripts of one document in a folder of its own.
agrees() {
    rm -rf "$work/here"
    mkdir "$work/here" && cp -R "$top/examples" "$work/here/examples" || return 1
    [ "$studies" = 0 ] || ln -s "$study" "$work/here/vcp_study" || return 1
    ln -s "$top/campaign.sh" "$work/here/campaign.sh" && ln -s "$vcp" "$work/here/vcp" && ln -s "$top/vcp_tools" "$work/here/vcp_tools" && ln -s "$top/checks" "$work/here/checks" || return 1
    shown "$1" >"$work/shown"
    script <"$work/shown" >"$work/script"
    (cd "$work/here" && VCP=$vcp VCP_STUDY=$study sh "$work/script" >"$work/printed" 2>&1 </dev/null)
    diff "$work/shown" "$work/printed"
}

for document in "$@"; do
    agrees "$document" || {
        echo "transcripts: $document differs from what is printed"
        exit 1
    }
    count=$(grep -c '^\$ ' "$work/shown")
    [ "$count" -eq 0 ] || echo "transcripts: ${document#"$top"/}: $count commands"
done
