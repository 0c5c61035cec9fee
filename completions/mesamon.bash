# Completions of mesamon for bash. tools/check_lists compares them with the help of the program.
# shellcheck shell=bash

# What each command takes: its files by their kinds, and its options, behind `=` with what they take.
_mesamon_words() {
    case "$1" in
        check) echo FILE --hints ;;
        compile) echo FILE OUT --workers=N --image=N --hints ;;
        list) echo IMAGE --linux --source=FILE --hints ;;
        run) echo FILE --steps=N --in-order --seed=N --strays=N --kills=N --trace --log=OUT --page=OUT --linux --hints ;;
        exec) echo IMAGE --steps=N --in-order --seed=N --strays=N --kills=N --trace --log=OUT --assembly --exits=RULE ;;
        replay) echo FILE SCHEDULE --steps=N --trace --log=LOG --page=OUT --assembly --image --linux --exits=RULE --hints ;;
        explain)
            echo FILE --steps=N --seed=N --strays=N --kills=N --schedule=SCHEDULE --log=LOG --actions=ACTIONS
            echo --chart=OUT --from=N --to=N --timeline=OUT --page=OUT --places --linux --hints ;;
        emit) echo FILE OUT --hints ;;
        assemble) echo FILE OUT --hints ;;
        explore)
            echo FILE --states=N --strays --kills=N --ends --chart=OUT --from=N --to=N --timeline=OUT
            echo --page=OUT --places --assembly --image --schedule=OUT --actions=OUT --linux --exits=RULE --hints ;;
        fmt) echo FILE --check --hints ;;
        schedule) echo LOG OUT --steps=N --hints ;;
        shrink) echo FILE SCHEDULE OUT --linux --hints ;;
        help) echo COMMAND ;;
    esac
}

# Offers the words of a kind that begin with $2: files of the usual ending and folders, or all files where there are none.
_mesamon_offer() {
    local ending=""
    case "$1" in
        FILE) ending=.mesa ;;
        IMAGE) ending=.image ;;
        SCHEDULE) ending=.schedule ;;
        LOG) ending=.log ;;
        ACTIONS) ending=.actions ;;
        OUT) ;;
        RULE)
            mapfile -t COMPREPLY < <(compgen -W "machine linux" -- "$2")
            return ;;
        COMMAND)
            mapfile -t COMPREPLY < <(compgen -W "check compile list run exec replay explain emit explore assemble fmt schedule shrink help" -- "$2")
            return ;;
        *) return ;;
    esac
    compopt -o filenames 2> /dev/null
    mapfile -t COMPREPLY < <({ compgen -f -X "!*$ending" -- "$2"; compgen -d -- "$2"; } | sort -u)
    [ "${#COMPREPLY[@]}" -gt 0 ] || mapfile -t COMPREPLY < <(compgen -f -- "$2")
}

_mesamon() {
    local current="${COMP_WORDS[COMP_CWORD]}" command="" known="" taken="" word kinds=() options=()
    COMPREPLY=()
    # (bash splits `--seed=1` at the sign, which stands as a word of its own)
    [ "$current" != = ] || current=""
    for word in "${COMP_WORDS[@]:1:COMP_CWORD-1}"; do
        if [ "$word" = = ]; then
            continue
        elif [ -n "$taken" ]; then
            taken=""
        elif [[ "$word" == -* ]]; then
            [[ "$known " != *" $word="* ]] || taken="${known#*" $word="}" taken="${taken%% *}"
        elif [ -z "$command" ]; then
            command="$word"
            known=" $(_mesamon_words "$command" | tr '\n' ' ')"
            read -ra kinds <<< "${known%%--*}"
        else
            kinds=("${kinds[@]:1}")
        fi
    done
    if [ -n "$taken" ]; then
        _mesamon_offer "$taken" "$current"
    elif [[ "$current" == -* ]]; then
        read -ra options <<< "$known"
        mapfile -t COMPREPLY < <(compgen -X '!-*' -W "${options[*]%%=*} -h --help" -- "$current")
    elif [ -z "$command" ]; then
        _mesamon_offer COMMAND "$current"
    else
        _mesamon_offer "${kinds[0]-}" "$current"
    fi
}

complete -F _mesamon mesamon
