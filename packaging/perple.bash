# Completion for bash of perple, perple_tool, perple-explain and perple-suite. The first two read a test on standard input, so a file is completed after a `<` alone.

_perple_numbers() {
    case $1 in
    --count) COMPREPLY=($(compgen -W 'exhaustive heuristic both' -- "$2")) ;;
    --rate) COMPREPLY=($(compgen -W '0 16 64 128 192 256' -- "$2")) ;;
    --buffer) COMPREPLY=($(compgen -W '1 2 4 8 16' -- "$2")) ;;
    --order) COMPREPLY=($(compgen -W "${3-} 0 1 2 3 4 5 6 7 8 9" -- "$2")) ;;
    --seed) COMPREPLY=($(compgen -W '0 1 2 3 4 5 6 7 8 9' -- "$2")) ;;
    --cut) COMPREPLY=($(compgen -W '1 4096 65536' -- "$2")) ;;
    *) return 1 ;;
    esac
}

# N where it is due, else the options of $1 that were not given yet: none may be given twice
_perple_options() {
    local left='' option
    if [ "$COMP_CWORD" -eq 2 ] && [ -z "$2" ]; then
        COMPREPLY=($(compgen -W '1 10 100 1000 10000 100000' -- "$2"))
        return
    fi
    for option in $1; do
        case " ${COMP_WORDS[*]:1:COMP_CWORD-1} " in
        *" $option "*) ;;
        *) left="$left $option" ;;
        esac
    done
    COMPREPLY=($(compgen -W "$left" -- "$2"))
}

_perple() {
    local word=${COMP_WORDS[COMP_CWORD]} before=${COMP_WORDS[COMP_CWORD - 1]} options='--count --rate --buffer --seed --cut'
    COMPREPLY=()
    if [ "$COMP_CWORD" -eq 1 ]; then
        COMPREPLY=($(compgen -W 'run replay convert demo' -- "$word"))
        return
    fi
    case ${COMP_WORDS[1]} in
    run | replay) ;;
    *) return ;;
    esac
    [ "${COMP_WORDS[1]}" = run ] || options="$options --order"
    _perple_numbers "$before" "$word" || _perple_options "$options" "$word"
}

_perple_tool() {
    local word=${COMP_WORDS[COMP_CWORD]} before=${COMP_WORDS[COMP_CWORD - 1]}
    COMPREPLY=()
    if [ "$COMP_CWORD" -eq 1 ]; then
        COMPREPLY=($(compgen -W 'judge order witness verdict show outcomes faithful count replay skew' -- "$word"))
        return
    fi
    case ${COMP_WORDS[1]} in
    count) _perple_numbers "$before" "$word" turns || _perple_options '--rate --buffer --seed --cut --order' "$word" ;;
    replay) _perple_numbers "$before" "$word" || _perple_options '--rate --buffer --seed --order' "$word" ;;
    witness | skew) [ "$COMP_CWORD" -ne 2 ] || COMPREPLY=($(compgen -W '1 10 100 1000 10000 100000' -- "$word")) ;;
    esac
}

# the test, two hyphens, and then what the program would be offered that has the command
_perple_explain() {
    local word=${COMP_WORDS[COMP_CWORD]} command=${COMP_WORDS[3]-}
    COMPREPLY=()
    case $COMP_CWORD in
    1)
        compopt -o filenames 2>/dev/null
        COMPREPLY=($(compgen -f -X '!*.litmus' -- "$word") $(compgen -d -- "$word"))
        ;;
    2) COMPREPLY=(--) ;;
    3) COMPREPLY=($(compgen -W 'run replay convert demo judge order witness verdict show outcomes faithful count skew' -- "$word")) ;;
    *)
        local COMP_WORDS=(perple "${COMP_WORDS[@]:3}") COMP_CWORD=$((COMP_CWORD - 2))
        case $command in
        run | replay | convert | demo) _perple ;;
        *) _perple_tool ;;
        esac
        ;;
    esac
}

_perple_suite() {
    local word=${COMP_WORDS[COMP_CWORD]}
    COMPREPLY=()
    case $COMP_CWORD in
    1)
        compopt -o filenames 2>/dev/null
        COMPREPLY=($(compgen -d -- "$word"))
        ;;
    2) COMPREPLY=($(compgen -W '--json --csv' -- "$word")) ;;
    esac
}

complete -F _perple perple
complete -F _perple_tool perple_tool
complete -F _perple_explain perple-explain
complete -F _perple_suite perple-suite
