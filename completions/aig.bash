# Completion of `aig` and `aig-explain` for bash: put it where bash-completion looks, or `source` it. It works without bash-completion.
# tools/make_completions.py writes aig.bash: its tables from the program's help, all else from aig.bash.in.

_aig() {
    local commands="toaig info select cut unroll sim wave bench shell check witness reduce why cnf refute strengthen help"
    local -A options=(
        [toaig]="--to --help"
        [info]="--names --json --help"
        [select]="--to --from --as --property --names --help"
        [cut]="--to --cuts --help"
        [unroll]="--frames --to --map --help"
        [sim]="--help"
        [wave]="--witness --help"
        [bench]="--circuit-out --stimulus-out --help"
        [shell]="--witness --help"
        [check]="--trace --properties --property --alive --frames --help"
        [witness]="--model --frames --step --certificate --alive --property --help"
        [reduce]="--help"
        [why]="--of --frame --depth --witness --json --help"
        [cnf]="--frames --property --step --certificate --alive --help"
        [refute]="--frames --property --step --certificate --alive --help"
        [strengthen]="--to --certificate --property --help"
    )
    # What the value of an option is: one of these words, a file, or a number.
    local -A values=(
        ["toaig --to"]="aag aig"
        ["select --to"]="aag aig"
        ["select --from"]="bad outputs"
        ["select --as"]="bad outputs"
        ["select --property"]="number"
        ["select --names"]="file"
        ["cut --to"]="aag aig"
        ["cut --cuts"]="file"
        ["unroll --frames"]="number"
        ["unroll --to"]="aag aig"
        ["unroll --map"]="file"
        ["bench --circuit-out"]="file"
        ["bench --stimulus-out"]="file"
        ["check --property"]="number"
        ["check --frames"]="number"
        ["witness --model"]="file"
        ["witness --frames"]="number"
        ["witness --certificate"]="file"
        ["witness --property"]="number"
        ["why --of"]="number"
        ["why --frame"]="number"
        ["why --depth"]="number"
        ["cnf --frames"]="number"
        ["cnf --property"]="number"
        ["cnf --certificate"]="file"
        ["refute --frames"]="number"
        ["refute --property"]="number"
        ["refute --step"]="file"
        ["refute --certificate"]="file"
        ["strengthen --to"]="aag aig"
        ["strengthen --certificate"]="file"
        ["strengthen --property"]="number"
    )
    local words=("") joins="" i
    COMPREPLY=()

    local command=${COMP_WORDS[1]}

    # The words after the command. Bash splits `--to=aag` at `=`, if `=` is in COMP_WORDBREAKS.
    for ((i = 2; i <= COMP_CWORD; i++)); do
        if [[ ${COMP_WORDS[i]} == = && ${words[-1]} == --* ]]; then
            words[-1]+="="
            joins=yes
        elif [[ -n $joins ]]; then
            words[-1]+=${COMP_WORDS[i]}
            joins=""
        else
            words+=("${COMP_WORDS[i]}")
        fi
    done

    # The option whose value is completed, and how many files come before it.
    local word=${words[-1]} option="" files=0
    for ((i = 1; i < ${#words[@]} - 1; i++)); do
        if [[ -n $option ]]; then
            option=""
        elif [[ ${words[i]} == -* ]]; then
            [[ -n ${values["$command ${words[i]}"]-} ]] && option=${words[i]}
        else
            ((files++))
        fi
    done

    local before=""
    if [[ -z $option && $word == --*=* ]]; then
        option=${word%%=*}
        [[ $COMP_WORDBREAKS == *=* ]] || before="$option="
        word=${word#*=}
    fi
    local value=${values["$command $option"]-}
    if ((COMP_CWORD == 1)); then
        _aig_reply "" -W "$commands --help --version" -- "$command"
    elif [[ $command == help ]]; then
        _aig_reply "" -W "$commands" -- "$word"
    elif [[ $value == file ]]; then
        _aig_reply "$before" -f -- "$word"
    elif [[ -n $option ]]; then
        compopt +o bashdefault +o default 2> /dev/null
        [[ $value == number ]] || _aig_reply "$before" -W "$value" -- "$word"
    elif [[ $word == -* ]]; then
        _aig_reply "" -W "${options[$command]-}" -- "$word"
    elif ((files == 0)); then
        # The first file is a circuit. If no name ends like one, each file may be.
        _aig_reply "" -f -X '!*.aag' -- "$word"
        _aig_reply "" -f -X '!*.aig' -- "$word"
        _aig_reply "" -d -- "$word"
        ((${#COMPREPLY[@]})) || _aig_reply "" -f -- "$word"
    else
        _aig_reply "" -f -- "$word"
    fi
}

# Adds what `compgen` finds, each with this text before it.
_aig_reply() {
    local before=$1 found
    shift
    while IFS= read -r found; do
        COMPREPLY+=("$before$found")
    done < <(compgen "$@")
}

# Where the function finds nothing, bash completes names by itself: those in quotes, and those with `~` or `$`.
complete -o filenames -o bashdefault -o default -F _aig aig aig-explain
