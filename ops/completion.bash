# Completion of `ledger` and `billctl` for bash. Source it, or put it into bash-completion's folder under the name `ledger`.

_ledger() {
    local word=${COMP_WORDS[COMP_CWORD]} options=--help
    local words='check today accounts due bills rows posts explain late tomorrow undo chain examine version run convert move statements seal backup restore night'
    if [ "$COMP_CWORD" -eq 1 ]; then
        mapfile -t COMPREPLY < <(compgen -W "$words --help --version" -- "$word")
        return
    fi
    case ${COMP_WORDS[1]} in
    run) options='--help --new --far --late --dated-back --wait --program' ;;
    night) options='--help --day --far --late --dated-back --reissue --keep --calls --wait --program' ;;
    tomorrow) options='--help --day --inbox --wait --program' ;;
    convert) options='--help --day --ledger --late --notes --wait' ;;
    rows | seal) options='--help --since --wait' ;;
    statements) options='--help --calls --form --issuer --names --notes --wait --program' ;;
    accounts) options='--help --owed --wait --program' ;;
    backup) options='--help --keep --wait --program' ;;
    restore) options='--help --again --wait --program' ;;
    check | late | examine) options='--help --wait --program' ;;
    version) options='--help --program' ;;
    explain) options='--help --program --issued --form --number --changes --balance' ;;
    today | due | bills | posts | undo | chain) options='--help --wait' ;;
    esac
    case $word in
    -*) mapfile -t COMPREPLY < <(compgen -W "$options" -- "$word") ;;
    *) mapfile -t COMPREPLY < <(compgen -f -- "$word") ;;
    esac
}

_billctl() {
    local word=${COMP_WORDS[COMP_CWORD]}
    case $COMP_CWORD in
    1)
        case $word in
        -*) mapfile -t COMPREPLY < <(compgen -W '- --help --version' -- "$word") ;;
        *) mapfile -t COMPREPLY < <(compgen -f -- "$word") ;;
        esac
        ;;
    2) mapfile -t COMPREPLY < <(compgen -W 'apply import statement restate export work demo serve repay trial' -- "$word") ;;
    *) COMPREPLY=() ;;
    esac
}

complete -o filenames -F _ledger ledger
complete -o filenames -F _billctl billctl
