#!/bin/sh
# install.sh PREFIX [EVIDENCE]: puts the proved programs, the tools, the manual pages, the completion for bash, the documents, the examples and the evidence
# below PREFIX, as /usr/local or ~/.local. What is there then needs neither these sources nor the prover. EVIDENCE is a folder that `vcp_tools evidence -o`
# has written and that still says what is here; where none is given, it is made, without the files of the toolchain and the gate's log.
#
#     install.sh --remove PREFIX    takes away what was put there, and what has changed since stays, and is named
#
# It proves nothing: where a program isn't the one that was proved from the present sources it puts nothing anywhere, and says which command makes it.
here=$(dirname -- "$(readlink -f -- "$0")") || exit 1
list=share/vcp/files.txt

refuse() {
    echo "install.sh: $*" >&2
    exit 2
}

# Takes away the files of an installation whose digests are those of its list, then the list and the folders that are empty then.
remove() {
    [ -f "$1/$list" ] || refuse "$1: nothing was put there: it has no $list"
    (
        cd "$1" || exit 2
        left=0
        while read -r sum file; do
            if [ ! -e "$file" ]; then
                continue
            elif [ "$(sha256sum <"$file" | cut -c 1-64)" = "$sum" ]; then
                rm -f -- "$file"
            else
                echo "install.sh: $1/$file has changed since, and stays" >&2
                left=1
            fi
        done <"$list"
        sed 's/^[0-9a-f]*  //' "$list" >"$list.old" && rm -f "$list" && while read -r file; do dirname "$file"; done <"$list.old" | sort -u -r >"$list.folders"
        rm -f "$list.old"
        while read -r folder; do
            while [ "$folder" != . ] && rmdir "$folder" 2>/dev/null; do folder=$(dirname "$folder"); done
        done <"$list.folders"
        rm -f "$list.folders"
        rmdir -p share/vcp 2>/dev/null
        exit "$left"
    ) || exit 9
}

# Whether each program is the one that was proved from the present sources.
proved() {
    for program in vcp vcp_study; do
        state=$("$here/launch.sh" --state "$program") || case $state in
        altered*) refuse "crates/$program/out/$program isn't the program that was proved: remove it, and run ./$program once" ;;
        '') refuse "the sources of $program can't be read" ;;
        *) refuse "$program isn't proved from these sources (${state%% *}): run ./$program once, which proves and builds it (docs/MEASURES.md has the time)" ;;
        esac
    done
}

# Puts all into a folder, and then their list.
stage() {
    share=$1/share/vcp
    mkdir -p "$1/bin" "$share/tools" "$1/share/man/man1" "$1/share/bash-completion/completions" || return 1
    for program in vcp vcp_study; do
        cp "$here/crates/$program/out/$program" "$1/bin/$program" && cp "$here/docs/$program.1" "$1/share/man/man1/" &&
            cp "$here/docs/completion.bash" "$1/share/bash-completion/completions/$program" || return 1
    done
    cp -R "$here/docs" "$here/examples" "$share/" && cp "$here/vcp_tools" "$here/README.md" "$here/CHANGELOG.md" "$share/" || return 1
    cp -R "$here/tools/vcp_tools" "$share/tools/vcp_tools" && cp -R "$here/tools/editors" "$share/tools/editors" || return 1
    find "$share" -depth -name __pycache__ -type d -exec rm -rf {} \;
    cp -R "$2" "$share/evidence" && cp "$here/checks/installed.sh" "$share/check.sh" || return 1
    cat >"$1/bin/vcp_tools" <<'END' || return 1
#!/bin/sh
# The tools around vcp: `vcp_tools help`.
command -v python3 >/dev/null 2>&1 || {
    echo "vcp_tools: Python 3.10 or later isn't here; vcp and vcp_study need none" >&2
    exit 2
}
exec "$(dirname -- "$(readlink -f -- "$0")")/../share/vcp/vcp_tools" "$@"
END
    find "$1" -type d -exec chmod 755 {} + && find "$1" -type f -exec chmod 644 {} + && chmod 755 "$1"/bin/* "$share/vcp_tools" "$share/check.sh"
}

# Writes the list of a folder's files with their digests.
write_list() {
    (cd "$1" && find . -type f ! -path "./$list" | sed 's,^\./,,' | LC_ALL=C sort | tr '\n' '\0' | xargs -0 -r sha256sum >"$work/files" && cp "$work/files" "$list")
}

# The evidence, made or looked at; what it lacks is told on standard error.
look() {
    if [ -n "$1" ]; then
        "$here/vcp_tools" evidence --check "$1" >"$work/told" 2>&1
        status=$?
        evidence=$1
    else
        evidence=$work/evidence
        "$here/vcp_tools" evidence -o "$evidence" --no-toolchain >"$work/told" 2>&1
        status=$?
    fi
    [ "$status" -eq 0 ] || grep -v 'SHA256SUMS [0-9a-f]' "$work/told" | sed "s,^$evidence: ,install.sh: evidence: ," >&2
    case $status in
    0) ;;
    9) [ -z "$1" ] || grep -q 'made again as it is filed' "$work/told" || refuse "$1: this evidence is of something else" ;;
    *) refuse "the evidence can't be made or compared" ;;
    esac
}

case $1 in
--remove)
    [ $# -eq 2 ] || refuse "write: install.sh --remove PREFIX"
    remove "$2"
    exit 0
    ;;
'' | -*) refuse "write: install.sh PREFIX [EVIDENCE], or install.sh --remove PREFIX" ;;
esac
[ $# -le 2 ] || refuse "write: install.sh PREFIX [EVIDENCE]"
[ ! -e "$1" ] || [ -d "$1" ] || refuse "$1: this is a file, and a folder is wanted"
[ ! -e "$1/$list" ] || refuse "$1: an installation is there: install.sh --remove $1 takes it away"
command -v python3 >/dev/null 2>&1 || refuse "Python 3 isn't here, by which the evidence is made"
proved
work=$(mktemp -d) || exit 1
trap 'rm -rf "$work"' EXIT
look "${2-}"
mkdir "$work/tree" && stage "$work/tree" "$evidence" && write_list "$work/tree" || refuse "the files can't be put together"
for file in bin/vcp bin/vcp_study bin/vcp_tools share/vcp; do
    [ ! -e "$1/$file" ] || refuse "$1/$file is there, and nothing was put there by install.sh: remove it first"
done
mkdir -p "$1" && cp -R "$work/tree/." "$1" || refuse "$1: the files can't be written there"
echo "$1: $(($(wc -l <"$work/files"))) files; $1/share/vcp/check.sh compares them with their list, whose digest is $(sha256sum <"$work/files" | cut -c 1-64)"
