#!/bin/sh
# Whether the manual pages and the completion of bash have the commands and the options of the usage lines, the commands in their order.
#
#     checks/usage.sh
#
# The usage lines are those of `crates/vcp_inputs/specs/Forms.antt` and `crates/vcp_study_core/specs/Forms.antt`, which `vcp` and `vcp_study` print. The first
# list that differs is shown as a diff, and the status is then 1. Without bash the options aren't looked at.
top=$(CDPATH='' cd -- "$(dirname -- "$0")/.." && pwd) || exit 1
work=$(mktemp -d) || exit 1
trap 'rm -rf "$work"' EXIT

# The options that each command may have by its forms: ROWS stands also for `--cycles N`, CODE for `--seed N` and `--step N`.
options() {
    awk '
        function add(command, option) { if (!index(has[command] " ", " " option " ")) has[command] = has[command] " " option }
        !($1 in has) { command[++count] = $1; has[$1] = "" }
        {
            for (i = 2; i <= NF; i++) {
                if ($i == "ROWS") add($1, "--cycles")
                if ($i == "CODE") { add($1, "--seed"); add($1, "--step") }
                if ($i ~ /^--/) add($1, $i)
            }
        }
        END { for (i = 1; i <= count; i++) print command[i] has[command[i]] }' "$1"
}

# What bash offers behind each command and its file for a word that begins with `-`.
completed() {
    # shellcheck disable=SC2016
    (cd "$work" && bash -c '
        . "$1" || exit 1
        for command in $(cat commands); do
            COMP_WORDS=("$2" "$command" file -) COMP_CWORD=3 COMPREPLY=()
            "_$2"
            echo "$command${COMPREPLY:+ ${COMPREPLY[*]}}"
        done' sh "$top/docs/completion.bash" "$1")
}

# compare PROGRAM CRATE: the page and the completion of a program, with the usage line that stands in a crate.
compare() {
    page=$top/docs/$1.1
    # `check P`, a line a form
    sed -n 's/.*"usage: '"$1"' \(.*\)\\n".*/\1/p' "$top/crates/$2/specs/Forms.antt" | sed 's/ or /, /; s/, /\n/g' >"$work/forms"
    [ -s "$work/forms" ] || {
        echo "usage: no usage line of $1 was found"
        return 1
    }
    cut -d ' ' -f 1 "$work/forms" | uniq >"$work/commands"

    sed -n 's/^\\fB'"$1"' \([a-z]*\)\\fR/\1/p' "$page" | sed 's/\\-/-/g' >"$work/page"
    diff "$work/forms" "$work/page" || return 1

    sed -n '/^\.SH COMMANDS/,/^\.SH EXIT/s/^\.B //p' "$page" >"$work/explained"
    diff "$work/commands" "$work/explained" || return 1

    sed -n "s/^_$1_commands='\(.*\)'/\1/p" "$top/docs/completion.bash" | tr ' ' '\n' >"$work/completed"
    diff "$work/commands" "$work/completed" || return 1

    if command -v bash >/dev/null 2>&1; then
        options "$work/forms" >"$work/options"
        completed "$1" >"$work/offered" || return 1
        diff "$work/options" "$work/offered" || return 1
    fi
    echo "usage: $1: $(wc -l <"$work/commands") commands"
}

compare vcp vcp_inputs && compare vcp_study vcp_study_core
