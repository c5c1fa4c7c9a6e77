# Completions of ntmend's words for bash. Made by tests/completions.py from crates/ntmend/src/pages.rt; edit neither by hand.
# To use it: source this file, or put it into /usr/share/bash-completion/completions as ntmend.
_ntmend() {
    local current=${COMP_WORDS[COMP_CWORD]}
    COMPREPLY=()
    if [ "$COMP_CWORD" -eq 1 ] && [[ $current == -* ]]; then
        COMPREPLY=($(compgen -W "--help --version" -- "$current"))
    elif [ "$COMP_CWORD" -le 2 ]; then
        compopt -o filenames 2> /dev/null
        mapfile -t COMPREPLY < <(compgen -f -- "$current")
    fi
}
complete -F _ntmend ntmend
