# Completion of the words of vcp and vcp_study for bash: `. docs/completion.bash`, or a copy in /etc/bash_completion.d.
# The commands and their options are those of the usage lines (checks/usage.sh compares them).

_vcp_commands='check format plain run compile list exec trace inject audit widen il pair pairs wire demo'

_vcp() {
    local word=${COMP_WORDS[COMP_CWORD]} before=${COMP_WORDS[COMP_CWORD - 1]} command=${COMP_WORDS[1]}
    if [ "$COMP_CWORD" -eq 1 ]; then
        mapfile -t COMPREPLY < <(compgen -W "$_vcp_commands" -- "$word")
        return
    fi
    case $before in
    --seed | --step | --cycles) return ;;
    esac
    case $command:$word in
    run:-* | il:-*) mapfile -t COMPREPLY < <(compgen -W '--cycles --seed --step' -- "$word") ;;
    compile:-*) mapfile -t COMPREPLY < <(compgen -W '--seed --step' -- "$word") ;;
    plain:-* | exec:-* | trace:-* | inject:-* | pair:-* | pairs:-*) mapfile -t COMPREPLY < <(compgen -W '--cycles' -- "$word") ;;
    demo:*) ;;
    *) mapfile -t COMPREPLY < <(compgen -f -- "$word") ;;
    esac
}

complete -o filenames -F _vcp vcp ./vcp

_vcp_study_commands='graph dot waves ranges cover sites sum faults script image text'

_vcp_study() {
    local word=${COMP_WORDS[COMP_CWORD]}
    case $COMP_CWORD:${COMP_WORDS[1]} in
    1:*) mapfile -t COMPREPLY < <(compgen -W "$_vcp_study_commands" -- "$word") ;;
    2:* | 3:faults | 4:faults | 3:script) mapfile -t COMPREPLY < <(compgen -f -- "$word") ;;
    3:waves) mapfile -t COMPREPLY < <(compgen -W '--cycle-time' -- "$word") ;;
    3:ranges) mapfile -t COMPREPLY < <(compgen -W '--all --inputs' -- "$word") ;;
    4:ranges) mapfile -t COMPREPLY < <(compgen -f -W '--inputs' -- "$word") ;;
    5:ranges) mapfile -t COMPREPLY < <(compgen -f -- "$word") ;;
    *:sum)
        case $word in
        -*) mapfile -t COMPREPLY < <(compgen -W '--cycles' -- "$word") ;;
        *) mapfile -t COMPREPLY < <(compgen -f -- "$word") ;;
        esac
        ;;
    3:sites)
        case $word in
        -*) mapfile -t COMPREPLY < <(compgen -W '--count --cycles' -- "$word") ;;
        *) mapfile -t COMPREPLY < <(compgen -f -- "$word") ;;
        esac
        ;;
    4:cover) mapfile -t COMPREPLY < <(compgen -W 'add rest stale skip from late operator all' -- "$word") ;;
    4:sites) mapfile -t COMPREPLY < <(compgen -W 'bits stale skip from operator rest all flips late' -- "$word") ;;
    *:image)
        case ${COMP_WORDS[COMP_CWORD - 1]} in
        --seed | --step) return ;;
        esac
        mapfile -t COMPREPLY < <(compgen -W '--seed --step' -- "$word")
        ;;
    *:sites) mapfile -t COMPREPLY < <(compgen -W '--count flips late' -- "$word") ;;
    esac
}

complete -o filenames -F _vcp_study vcp_study ./vcp_study
