#!/bin/sh
# launch.sh PROGRAM WORDS..: runs the proved program with these words, in the caller's folder. Beside the program stands a record of the sources that it
# was proved from, with digests: files' times say nothing. Where no program of these sources is there, it is proved and built first, as many crates side by
# side as the machine has room for; it warns then where the toolchain isn't the one that docs/PROMISES.md names. A program that isn't the recorded one isn't run.
#
#     launch.sh --sources [PROGRAM..]    prints a line for each program (vcp, vcp_study): `sources`, its name, and the digest of what it is made of
#     launch.sh --record SOURCES         records, behind an `rt ci` that has passed, what was proved: SOURCES has the lines of `--sources` from before it
#     launch.sh --state PROGRAM          prints `proved`, `missing`, `unrecorded`, `changed` (other sources) or `altered` (another program), and the digest of
#                                        the sources; its status is 0 where it is `proved`
here=$(dirname -- "$(readlink -f -- "$0")") || exit 1
command -v sha256sum >/dev/null 2>&1 || {
    echo "launch.sh: the command sha256sum isn't there" >&2
    exit 1
}

# Names a program, and where it stands, with its record and its log; `kept` has what was proved here before, by the digests of the sources.
use() {
    name=$1
    out=$here/crates/$name/out
    log=$out/build.log
    kept=$here/out/proved/$name
}

# The lines of crates.txt, in a folder, of the crates that the program is made of: its own and those below it.
lines_of() {
    awk -F: -v program="$name" '
        { line = $0; sub(/#.*/, ""); if (split($1, word, " ")) { below[word[1]] = $2; text[word[1]] = line } }
        END {
            part[last = 1] = program
            for (i = 1; i <= last; i++) {
                print text[part[i]]
                count = split(below[part[i]], name, " ")
                for (j = 1; j <= count; j++)
                    if (name[j] in below && !(name[j] in seen)) {
                        seen[name[j]]
                        part[++last] = name[j]
                    }
            }
        }' "$1/crates.txt"
}

# The crates that the program is made of.
parts() {
    lines_of "$here" | sed 's/[ :].*//'
}

sum() {
    sha256sum <"$1" | cut -c 1-64
}

# The digest of all that the program is made of, in a folder: its lines of crates.txt, HANDLES, and the code, the definitions and the proofs of its crates,
# a line a file as sha256sum writes it, in the order of the names. The edits that the proofs must refuse are no part of it.
sources_in() (
    cd "$1" || exit 1
    lines=$(lines_of .)
    set -- HANDLES
    for part in $(printf '%s\n' "$lines" | sed 's/[ :].*//'); do
        set -- "$@" "crates/$part/src" "crates/$part/specs" "crates/$part/proofs"
    done
    {
        printf '%s\n' "$lines" | LC_ALL=C sort
        find "$@" -type f \( -name HANDLES -o -name '*.rt' -o -name '*.antt' \) -print 2>/dev/null | LC_ALL=C sort | tr '\n' '\0' | xargs -0 -r sha256sum
    } | sha256sum | cut -c 1-64
)

# field RECORD WORD: what a record says behind a word.
field() {
    sed -n "s/^$2 //p" "$1" 2>/dev/null | head -n 1
}

# state FOLDER SOURCES: of the program there, whether it is the one that was proved from these sources.
state() {
    if [ ! -x "$1/$name" ]; then
        echo missing
    elif [ ! -f "$1/$name.proved" ]; then
        echo unrecorded
    elif [ "$(field "$1/$name.proved" sources)" != "$2" ]; then
        echo changed
    elif [ "$(field "$1/$name.proved" program)" != "$(sum "$1/$name")" ]; then
        echo altered
    else
        echo proved
    fi
}

# record FOLDER SOURCES BY: writes the record of the program there, and keeps both, with the log, for when these sources are there again.
record() {
    [ -f "$1/build.log" ] && of_log=$(sum "$1/build.log") || of_log=none
    {
        echo "program $(sum "$1/$name")"
        echo "sources $2"
        echo "toolchain $(rt version 2>/dev/null | head -n 1)"
        echo "log $of_log"
        echo "by $3"
    } >"$1/$name.proved.new" && mv "$1/$name.proved.new" "$1/$name.proved" && put "$1" "$kept/$2"
}

# put FROM TO: puts a program, its record and its log into another folder, the record last.
put() {
    mkdir -p "$2" && rm -f "$2/$name.proved" "$2/build.log" && cp "$1/$name" "$2/$name.new" && mv "$2/$name.new" "$2/$name" || return 1
    [ ! -f "$1/build.log" ] || cp "$1/build.log" "$2/build.log" || return 1
    cp "$1/$name.proved" "$2/$name.proved"
}

# The crates that the program is made of, with nothing else, in a folder of their own: without the edits that the proofs must refuse.
copy_parts() {
    cp "$here/HANDLES" "$1" && mkdir "$1/crates" && lines_of "$here" >"$1/crates.txt" || return 1
    for part in $(parts); do
        cp -R "$here/crates/$part" "$1/crates/$part" && rm -rf "$1/crates/$part/out" "$1/crates/$part/must-fail" || return 1
    done
}

# A line for each crate of a tree: its name, and what its proof costs, in functions: those that it has, and ten for reading what is below it.
weights() {
    for part in $(parts); do
        echo "$part $(($(cat $(find "$1/crates/$part/src" -name '*.rt') | grep -c '^ *\(pub\((crate)\)\? \)\?\(const \)\?fn ') + 10))"
    done
}

# Keeps the lines of a build in the log, and a line with its name for each crate that is proved.
follow() {
    while IFS= read -r line; do
        printf '%s\n' "$line" >>"$log"
        case $line in
        "rt: "*" proved" | "rt: "*" is kept: "*) echo "$line" | cut -d ' ' -f 2 >>"$1" ;;
        esac
    done
}

# Says on standard error every half minute, or every SECONDS where VCP_TELLS=SECONDS is set, what a build is at: how many crates are proved, how much of the
# work is left, by the weights of those that aren't, and which can be under way, since all below them are proved.
tell_progress() {
    began=$(date +%s)
    while :; do
        sleep "${VCP_TELLS:-30}" >/dev/null 2>&1 &
        wait $!
        awk -v name="$name" -v minutes=$((($(date +%s) - began) / 60)) '
            FILENAME == ARGV[1] { done[$1]; next }
            FILENAME == ARGV[2] { weight[$1] = $2; all += $2; count++; next }
            { crate = $1; sub(/:.*/, "", crate); if (crate in done) { proved++; part += weight[crate]; next }
              for (i = 2; i <= NF; i++) if ($i in weight && !($i in done)) next
              going = going (going == "" ? "" : ", ") crate }
            END { printf "%s: %d of %d crates proved, %d %% of the work left, after %d min; at %s\n", name, proved, count, 100 - 100 * part / all, minutes,
                going == "" ? "the program" : going }' "$1" "$2" "$3" >&2
    done
}

# Warns where `rt version` isn't the line of the toolchain that docs/PROMISES.md has under 'Trusted': the proofs passed with that one.
compare_toolchain() {
    promised=$(sed -n 's/^    \(rattle-kit.*\)$/\1/p' "$here/docs/PROMISES.md" 2>/dev/null | head -n 1)
    present=$(rt version 2>/dev/null | head -n 1)
    [ "$present" = "$promised" ] ||
        echo "$name: warning: rt version says '$present', and docs/PROMISES.md names '$promised', with which the proofs passed" >&2
}

# Proves the crates side by side, as `rt ci` does it, and takes the program that it has built of them.
build() {
    command -v rt >/dev/null 2>&1 || {
        echo "$name: no program that was proved from these sources is here, and the toolchain's command rt isn't there" >&2
        return 1
    }
    compare_toolchain
    tree=$(mktemp -d) || return 1
    count=$(parts | wc -l)
    echo "$name: proving and building $((count)) crates; docs/MEASURES.md has the time from nothing, memory and disk" >&2
    done=$(mktemp -d) && : >"$done/proved" || return 1
    mkdir -p "$out" && rm -f "$out/$name.proved" && : >"$log" && copy_parts "$tree" && sources=$(sources_in "$tree") && weights "$tree" >"$done/weights" && {
        tell_progress "$done/proved" "$done/weights" "$tree/crates.txt" &
        telling=$!
        (cd "$tree" && rt ci 2>&1 </dev/null) | follow "$done/proved"
        kill $telling
        wait $telling 2>/dev/null
    }
    rm -rf "$done"
    if tail -n 1 "$log" | grep -q ' passed, 0 failed$' && cp "$tree/crates/$name/out/$name" "$out/$name.new" && mv "$out/$name.new" "$out/$name" &&
        record "$out" "$sources" "./$name, of these crates alone"; then
        rm -rf "$tree"
        return 0
    fi
    rm -rf "$tree"
    echo "$name: the program was not built; the end of $log:" >&2
    tail -n 20 "$log" >&2
    return 1
}

# Sees to it that the program that stands is the one that was proved from the present sources.
provide() {
    sources=$(sources_in "$here") || return 1
    found=$(state "$out" "$sources")
    case $found in
    proved) return 0 ;;
    altered)
        echo "$name: crates/$name/out/$name isn't the program that was proved: its digest isn't the one that $name.proved beside it names, and it isn't run." \
            "Remove it, and ./$name puts the proved one in its place" >&2
        return 1
        ;;
    esac
    if [ "$(state "$kept/$sources" "$sources")" = proved ]; then
        put "$kept/$sources" "$out"
        return
    fi
    case $found in
    unrecorded) echo "$name: crates/$name/out/$name has no record of what it was proved from; proofs that rt keeps aren't made again" >&2 ;;
    changed) echo "$name: the sources aren't those that crates/$name/out/$name was proved from" >&2 ;;
    esac
    build
}

case ${1:?the name of a program} in
--sources)
    shift
    [ $# -gt 0 ] || set -- vcp vcp_study
    for given; do
        use "$given" && echo "sources $given $(sources_in "$here")" || exit 1
    done
    ;;
--record)
    printf '%s\n' "$2" | while read -r word given sources; do
        use "$given"
        if [ "$word" = sources ] && [ -x "$out/$given" ] && [ "$sources" = "$(sources_in "$here")" ]; then
            record "$out" "$sources" "rt ci, of all crates" && echo "launch.sh: recorded that $given was proved from these sources, $sources" || exit 1
        else
            echo "launch.sh: nothing is recorded of $given: it isn't built, or its sources have changed since"
        fi
    done
    ;;
--state)
    use "${2:?the name of a program}"
    sources=$(sources_in "$here") && found=$(state "$out" "$sources") && echo "$found $sources" && [ "$found" = proved ]
    ;;
*)
    use "$1"
    shift
    provide || exit 1
    exec "$out/$name" "$@"
    ;;
esac
