# Completions of bash for kimorefo. The words of kimorefo-watch are numbers.

# Adds those of some words that begin as the last one does.
_kimorefo_words() {
    local word
    for word in $1; do
        case $word in "${COMP_WORDS[COMP_CWORD]}"*) COMPREPLY+=("$word") ;; esac
    done
}

_kimorefo() {
    COMPREPLY=()
    case $COMP_CWORD:${COMP_WORDS[1]} in
        1:*) _kimorefo_words 'plan smooth anytime batch twin check plain show convert gen trial' ;;
        2:plain | 3:plan) _kimorefo_words 'full' ;;
    esac
}

complete -F _kimorefo kimorefo
