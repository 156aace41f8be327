# Completion for bash of sweep and point: their options, and files where a plan or a listing is to
# be named. Needs bash alone. bash-completion finds it under the names sweep and point; else source
# it. Numbers (FIRST, COUNT, N) are not completed.

# _buckethare_sweep: sets `options` and `files`, what may stand in this place
_buckethare_sweep() {
    local plan=1 last=1
    case ${COMP_WORDS[1]-} in
        --points | --experiments | --fields) plan=2 last=2 ;;
        --resume) plan=2 last=3 ;;
        --at)
            plan=2 last=2
            case ${COMP_WORDS[2]-} in
                --experiments | --fields) plan=3 last=3 ;;
            esac
            ;;
        --help | --version | -h) plan=2 last=1 ;;
    esac
    if ((COMP_CWORD == 1)); then
        options='--points --experiments --fields --at --resume --help --version'
    elif ((COMP_CWORD == 2)) && [[ ${COMP_WORDS[1]} == --at ]]; then
        options='--experiments --fields'
    fi
    if ((COMP_CWORD == 1 || plan <= COMP_CWORD && COMP_CWORD <= last)); then
        files=yes
    fi
}

_buckethare_point() {
    if ((COMP_CWORD == 1)); then
        options='--help --version'
        files=yes
    fi
}

# _buckethare PROGRAM: bash calls it; what it found is in COMPREPLY
_buckethare() {
    local word=${COMP_WORDS[COMP_CWORD]} options='' files=''
    COMPREPLY=()
    case ${1##*/} in
        point) _buckethare_point ;;
        *) _buckethare_sweep ;;
    esac
    if [[ $word == -* ]]; then
        mapfile -t COMPREPLY < <(compgen -W "$options" -- "$word")
    elif [[ -n $files ]]; then
        mapfile -t COMPREPLY < <(compgen -f -- "$word")
    fi
}

complete -o filenames -F _buckethare sweep point
