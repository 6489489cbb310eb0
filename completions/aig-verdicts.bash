# Completion of `aig-verdicts` for bash: put it where bash-completion looks, or `source` it. It works without that.
# tools/make_completions.py writes aig-verdicts.bash: its options from the help of aig-verdicts, all else from
# aig-verdicts.bash.in.

_aig_verdicts() {
    local -A options=(
        [run]="--abc --assert --conflicts --cores --dask --dask-seconds --define --depth --drat2lrat --engine --frames --free --fresh --help --hints --include --jobs --json --junit --keep-open --list --megabytes --minimal --module --needed --no-conditions --no-simulator --no-wires --only --out --parameter --proof-megabytes --quiet --seconds --simulator --since --solver --top --total --verbose --zip"
        [demo]="--help"
        [recheck]="--help --include --jobs --json --junit --megabytes --page --quiet --seed --simulate --simulator --since --sources --yosys"
        [cores]="--abc --drat2lrat --help --jobs --json --junit --minimal --needed --quiet --solver --zip"
        [compare]="--all --help --jobs --json --junit --megabytes --page"
        [replay]="--help --hold --only --random --simulator --to --verbose"
    )
    local word=${COMP_WORDS[COMP_CWORD]} words=""
    if ((COMP_CWORD == 1)); then
        words="${!options[*]} --help --version"
    elif [[ $word == -* ]]; then
        words=${options[${COMP_WORDS[1]}]-}
    fi
    mapfile -t COMPREPLY < <(compgen -W "$words" -- "$word")
}

# Where the function finds nothing, bash completes files.
complete -o bashdefault -o default -F _aig_verdicts aig-verdicts
