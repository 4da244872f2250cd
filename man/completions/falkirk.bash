# bash: made by man/make from man/words
_falkirk() {
    local word=${COMP_WORDS[COMP_CWORD]} at=1 first=1
    while [[ " --help -h --version --quiet --verbose --json - " == *" ${COMP_WORDS[at]} "* && $at -lt $COMP_CWORD ]]; do at=$((at + 1)); done
    if [[ $1 == *falkirk_disk ]]; then
        if [[ $at == "$COMP_CWORD" && $word != -* ]]; then COMPREPLY=($(compgen -d -- "$word")); return; fi
        [[ $at == "$COMP_CWORD" ]] || at=$((at + 1))
    fi
    if [[ $at == "$COMP_CWORD" ]]; then COMPREPLY=($(compgen -W "run endure explain hold gen denote check live choose verify --help -h --version --quiet --verbose --json -" -- "$word"))
    else COMPREPLY=($(compgen -f -- "$word")); fi
}
complete -o filenames -F _falkirk falkirk falkirk_disk
