# Completion of si-history for bash: what may stand next, as the command itself tells, and file names where it tells nothing.
_si_history() {
    local IFS=$'\n'
    # shellcheck disable=SC2207 # a line is a word, and none of them is a pattern
    COMPREPLY=($("${COMP_WORDS[0]}" completion words "${COMP_WORDS[@]:1:COMP_CWORD}" 2>/dev/null))
}
complete -o default -F _si_history si-history
