# Completion of si_audit in bash.
_si_audit() {
    local word=${COMP_WORDS[COMP_CWORD]} before=${COMP_WORDS[COMP_CWORD - 1]}
    case $before in
        --check) mapfile -t COMPREPLY < <(compgen -W "serializable ssi si gsi" -- "$word") ;;
        --workers) mapfile -t COMPREPLY < <(compgen -W "$(seq 1 64)" -- "$word") ;;
        *) mapfile -t COMPREPLY < <(compgen -W "--brief --check --explain --help --max-bytes --max-events --version --workers" -- "$word") ;;
    esac
}
# What stands behind < is a file, as in every command.
complete -o bashdefault -o default -F _si_audit si_audit
