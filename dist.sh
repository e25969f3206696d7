#!/bin/sh
# dist.sh FILE.tar.gz EVIDENCE: what install.sh puts below a folder, as a tar file that can be unpacked anywhere, with a README and a check of its digests:
# for those who only use the programs. EVIDENCE is a folder of `vcp_tools evidence -o`, with the gate's log, which has to say that all belongs together. Of
# the same sources, programs and evidence the same bytes come. `dist.sh --incomplete FILE.tar.gz [EVIDENCE]` also takes evidence that lacks something;
# the README then says so.
here=$(dirname -- "$(readlink -f -- "$0")") || exit 1

refuse() {
    echo "dist.sh: $*" >&2
    exit 2
}

incomplete=
[ "$1" != --incomplete ] || { incomplete=1 && shift; }
case $1 in '' | -*) refuse "write: dist.sh FILE.tar.gz EVIDENCE" ;; esac
[ $# -eq 2 ] || [ "$incomplete$#" = 11 ] || refuse "write: dist.sh FILE.tar.gz EVIDENCE (\`vcp_tools evidence -o EVIDENCE --gate LOG\` writes it)"
work=$(mktemp -d) || exit 1
trap 'rm -rf "$work"' EXIT
mkdir "$work/tree" || exit 1
"$here/install.sh" "$work/tree" ${2+"$2"} >"$work/said" 2>"$work/lacking" || {
    sed 's/^install.sh: /dist.sh: /' "$work/lacking" >&2
    exit 2
}
summary=$work/tree/share/vcp/evidence/summary.txt
if [ -s "$work/lacking" ] && [ -z "$incomplete" ]; then
    sed 's/^install.sh: /dist.sh: /' "$work/lacking" >&2
    refuse "the evidence lacks something: see to that, or write --incomplete"
fi

# What the summary of the evidence says behind a word.
said() {
    sed -n "s/^$1: //p" "$summary" | head -n 1
}

version=$(said tools)
commit=$(said commit)
name=vcp-$version-$(printf '%.12s' "$commit" | tr -c '0-9a-f\n' _)
mv "$work/tree" "$work/$name" || exit 1
summary=$work/$name/share/vcp/evidence/summary.txt
library=$(grep -a -o -h 'GLIBC_[0-9.]*' "$work/$name/bin/vcp" "$work/$name/bin/vcp_study" | sed 's/GLIBC_//' | sort -V | tail -n 1)
{
    cat <<END
vcp $version: a vital coded processor for cyclic control programs

    bin/vcp         runs a control program on recorded inputs in coded words, and reports which disturbances would be detected
    bin/vcp_study   pictures, ranges, covers, scripts of faults and sums of their verdicts
    bin/vcp_tools   the tools around both (Python 3.10 or later; some want: apt-get install python3-lark python3-z3 parallel)

It runs on Linux with an x86-64-v2 processor and the GNU C library${library:+ $library or later}, from any folder; nothing has to be installed, and nothing
is written here. First:

    sh share/vcp/check.sh
    bin/vcp run share/vcp/examples/crossing.st share/vcp/examples/crossing.csv
    man share/man/man1/vcp.1
    bin/vcp_tools help

To have the commands everywhere, put this folder's bin/ on the PATH, or copy bin/ and share/ into /usr/local or ~/.local.
share/vcp/README.md says what vcp is and what it isn't, and share/vcp/docs/ has all documents.

check.sh compares each file with share/vcp/files.txt, whose digest is published where this file is offered: compare it, too.
share/vcp/evidence/ says from which sources and by which toolchain the programs were proved, and what the gate found:

    commit     $commit
    vcp        $(said vcp | cut -c 1-64)
    vcp_study  $(said vcp_study | cut -c 1-64)
    toolchain  $(said 'toolchain recorded')
    gate       $(said gate)

Who has the sources and the toolchain makes the same again by \`./vcp\`, or by the gate (\`.ci/run\`), and compares it by
\`vcp_tools evidence --check share/vcp/evidence\`.
END
    [ ! -s "$work/lacking" ] || { echo && echo "THE EVIDENCE LACKS:" && sed 's/^install.sh: evidence: /    /' "$work/lacking"; }
} >"$work/$name/README"
(cd "$work/$name" && list=share/vcp/files.txt && { cat "$list" && sha256sum README; } | LC_ALL=C sort -k 2 >"$work/files" && cp "$work/files" "$list") || exit 1
moment=$(git -C "$here" log -1 --format=%ct 2>/dev/null) || moment=0
tar -C "$work" --format=ustar --sort=name --mtime="@${moment:-0}" --owner=0 --group=0 --numeric-owner -cf "$work/tar" "$name" && gzip -9 -n <"$work/tar" >"$work/tar.gz" &&
    cp "$work/tar.gz" "$1" || refuse "$1: it can't be written"
echo "$1: $name, $(($(wc -l <"$work/files"))) files; its digest is $(sha256sum <"$1" | cut -c 1-64), that of its list $(sha256sum <"$work/files" | cut -c 1-64)"
