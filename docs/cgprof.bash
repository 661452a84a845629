# Completion of cgprof's words for bash, made by tools/options.py: . docs/cgprof.bash
_cgprof() {
    local word=${COMP_WORDS[COMP_CWORD]} before=${COMP_WORDS[COMP_CWORD - 1]} option= names=
    COMPREPLY=()
    if ((COMP_CWORD == 1)); then
        COMPREPLY=($(compgen -W "run report annotate demo" -- "$word"))
        return
    fi
    # The word `--NAME=VALUE` comes as three words.
    if [[ $word == "=" ]]; then
        option=$before word=
    elif [[ $before == "=" ]]; then
        option=${COMP_WORDS[COMP_CWORD - 2]}
    elif [[ $before == --?* ]]; then
        option=$before
    fi
    case $option in
    --branch-sim) COMPREPLY=($(compgen -W "yes no" -- "$word")); return ;;
    --sort) COMPREPLY=($(compgen -W "Ir Dr Dw I1mr D1mr D1mw ILmr DLmr DLmw Bc Bcm Bi Bim" -- "$word")); return ;;
    --tree) COMPREPLY=($(compgen -W "none caller calling both" -- "$word")); return ;;
    --auto) COMPREPLY=($(compgen -W "yes no" -- "$word")); return ;;
    --waits) COMPREPLY=($(compgen -W "yes no" -- "$word")); return ;;
    --dump-instr) COMPREPLY=($(compgen -W "yes no" -- "$word")); return ;;
    --budget | --quantum | --turns | --I1 | --D1 | --LL | --dump-every | --dump-before | --dump-after | --threshold | --separate-callers) return ;;
    esac
    case ${COMP_WORDS[1]} in
    run) names="--base= --input= --budget= --quantum= --turns= --I1= --D1= --LL= --dump-every= --dump-before= --dump-after= --branch-sim= --waits= --separate-callers= --dump-instr=" ;;
    report) names="--base= --input= --budget= --quantum= --turns= --I1= --D1= --LL= --dump-every= --dump-before= --dump-after= --branch-sim= --sort= --threshold= --tree= --auto= --dump-instr=" ;;
    annotate) names="--sort= --threshold= --tree= --auto=" ;;
    demo) return ;;
    esac
    if [[ $word == -* && -z $option ]]; then
        COMPREPLY=($(compgen -W "$names" -- "$word"))
        compopt -o nospace
    else
        compopt -o filenames
        mapfile -t COMPREPLY < <(compgen -f -- "$word")
    fi
}
complete -F _cgprof cgprof
