# Completes the words of basecode(1) in bash, and leaves all others to its default.

# Sets `words` to those of the line up to the cursor, without redirections. It fails where the last
# is none of these.
_basecode_words() {
    local at
    words=()
    for ((at = 1; at <= COMP_CWORD; at++)); do
        case ${COMP_WORDS[at]},${COMP_WORDS[at + 1]-} in
        [\<\>]*)
            # What is redirected to is several words where it has `:` or `=`.
            ((++at < COMP_CWORD)) || return
            while [[ ${COMP_WORDS[at + 1]-} == [:=] ]]; do ((at += 2)); done
            ;;
        [0-9]*,[\<\>]* | \{*\},[\<\>]*) ((at < COMP_CWORD)) || return ;;
        *) words+=("${COMP_WORDS[at]}") ;;
        esac
    done
    ((${#words[@]} > 0))
}

_basecode() {
    local choices='' program=${COMP_WORDS[0]/#\~\//$HOME/} words
    COMPREPLY=()
    _basecode_words || return 0
    case ${#words[@]},${words[0]} in
    1,*) choices='list encode decode canonical' ;;
    2,encode | 2,decode | 2,canonical) choices=$("$program" list 2>/dev/null) ;;
    esac
    COMPREPLY=($(compgen -W "$choices" -- "${COMP_WORDS[COMP_CWORD]}"))
}

complete -o default -F _basecode basecode
