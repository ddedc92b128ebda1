#compdef si-history
# Completion of si-history for zsh: what may stand next, as the command itself tells, and file names where it tells nothing.
_si_history() {
    local -a found
    found=(${(f)"$(${words[1]} completion words "${(@)words[2,CURRENT]}" 2>/dev/null)"})
    if (( ${#found} )); then
        compadd -a found
    else
        _files
    fi
}
# zsh runs this file as a function where it found it by itself, and then wants an answer at once.
if [[ ${funcstack[1]} == _si-history ]]; then
    _si_history "$@"
else
    compdef _si_history si-history
fi
