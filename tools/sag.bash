# Completion of sag, sag-plot and sag-experiment in bash. What sag takes is read off the usage that it prints.

# the usage, a line a command, without the program's name
_sag_usage() {
    "$1" 2>&1 >/dev/null | sed -n 's/^\(usage:\)\{0,1\} *sag //p'
}

# what of these words begins like the present one
_sag_offer() {
    mapfile -t COMPREPLY < <(compgen -W "$1" -- "${COMP_WORDS[COMP_CWORD]}")
}

_sag_files() {
    compopt -o filenames 2>/dev/null
    mapfile -t COMPREPLY < <(compgen -f -- "${COMP_WORDS[COMP_CWORD]}")
}

# how many names of files and other plain words stand between the command and the present word
_sag_names_before() {
    local place count=0
    for ((place = 2; place < COMP_CWORD; place++)); do
        case ${COMP_WORDS[place]} in
            --cores | --budget | --prec | --trial) ((place++)) ;;
            -*) ;;
            *) ((count++)) ;;
        esac
    done
    echo "$count"
}

_sag() {
    local usage line names word
    usage=$(_sag_usage "${COMP_WORDS[0]}")
    if ((COMP_CWORD == 1)); then
        _sag_offer "$(cut -d ' ' -f 1 <<<"$usage")"
        return
    fi
    line=$(grep "^${COMP_WORDS[1]} " <<<"$usage ")
    case ${COMP_WORDS[COMP_CWORD - 1]} in
        --cores | --budget | --trial) return ;;
        --prec) _sag_files; return ;;
    esac
    if [[ ${COMP_WORDS[COMP_CWORD]} == -* ]]; then
        _sag_offer "$(grep -o -e '--[a-z]*' <<<"$line")"
        return
    fi
    names=($(sed 's/\[.*//' <<<"$line"))
    word=${names[1 + $(_sag_names_before)]}
    case $word in
        POLICY) _sag_offer "rate deadline edf" ;;
        *\|*) _sag_offer "${word//|/ }" ;;
        HORIZON | NUMBER | TASK | JOB) ;;
        *) _sag_files ;;
    esac
}

# completes commands, options by command, and files: $1 has a line for each command, with its options behind it
_sag_tool() {
    local line
    if ((COMP_CWORD == 1)); then
        _sag_offer "$(cut -d ' ' -f 1 <<<"$1")"
    elif [[ ${COMP_WORDS[COMP_CWORD]} == -* ]]; then
        line=$(grep "^${COMP_WORDS[1]} " <<<"$1")
        _sag_offer "${line#* } --help"
    else
        case ${COMP_WORDS[COMP_CWORD - 1]} in
            --format) _sag_offer "svg png" ;;
            --times) _sag_offer "completion response" ;;
            --policy) _sag_offer "rate deadline edf" ;;
            --periods) _sag_offer "automotive" ;;
            *) _sag_files ;;
        esac
    fi
}

_sag_plot() {
    _sag_tool "schedule -o --scenario --from --to --jobs --format
bounds -o --from --to --jobs --format --times
levels -o --from --to --format
page -o --prec --title"
}

_sag_experiment() {
    _sag_tool "make --utilizations --sets --seed --tasks --periods --cores --jitter --variation --longest --horizon --most-jobs --policy --budget
run --sag --keep
one --sag --keep
table --help
plot -o --format"
}

complete -F _sag sag
complete -F _sag_plot sag-plot
complete -F _sag_experiment sag-experiment
