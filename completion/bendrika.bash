# Completion of bendrika for bash. Written by scripts/pages.
_bendrika() {
    local word=${COMP_WORDS[COMP_CWORD]}
    COMPREPLY=()
    if [ "$COMP_CWORD" -eq 1 ]; then
        COMPREPLY=($(compgen -W "check explain cycles serve outcomes split trace page judge lines help --help --version" -- "$word"))
        return
    fi
    case ${COMP_WORDS[1]} in
    help) COMPREPLY=($(compgen -W "check explain cycles serve outcomes split trace page judge lines" -- "$word")) ;;
    check) COMPREPLY=($(compgen -W "--json --quiet --no-warnings --limit --help" -- "$word") $(compgen -f -X '!*.toml' -- "$word") $(compgen -d -- "$word")) ;;
    explain) COMPREPLY=($(compgen -W "K9 K2 K1 K5 K7 K8 K4 K3 K6 S1 S2 S3 S4 S5 S6 S7 S8 S9 C6 C7 C11 C4 C8 C9 C10 C5 C3 C2 C1 C12 C13 C14 F1 F2 F3 U4 F4 U2 F5 U1 F6 U3 usage done read old met taken put took unfinished timeout busy full empty spent berr denied refused slot refused nothing no-turns few-turns idle-turns no-lines no-answer past-end board-lacks never-met lock-written lock-kept idle-mailbox decimal J1 J2 J3 J4 J5 J6 J7 J8 J9 J10 J11 J12 J13 J14 J15 J16 J17 J21 J22 J23 J24 --all --json --help" -- "$word")) ;;
    cycles) COMPREPLY=($(compgen -W "--json --quiet --no-warnings --limit --help" -- "$word") $(compgen -f -- "$word")) ;;
    serve) COMPREPLY=($(compgen -W "--help" -- "$word") $(compgen -f -- "$word")) ;;
    outcomes) COMPREPLY=($(compgen -W "--never --always --lines --show --page --stuck --quiet --limit --memory --progress --json --help" -- "$word") $(compgen -f -- "$word")) ;;
    split) COMPREPLY=($(compgen -W "--local-width --wide --slot --help" -- "$word") $(compgen -f -- "$word")) ;;
    trace) COMPREPLY=($(compgen -W "--polls --gtkw --help" -- "$word") $(compgen -f -- "$word")) ;;
    page) COMPREPLY=($(compgen -W "--help" -- "$word") $(compgen -f -- "$word")) ;;
    judge) COMPREPLY=($(compgen -W "--history --states --protocol --strict --lines --zero --open --others --ignore-am --timeout --limit --log --json --quiet --help" -- "$word") $(compgen -f -- "$word")) ;;
    lines) COMPREPLY=($(compgen -W "--help" -- "$word")) ;;
    esac
}
complete -o filenames -F _bendrika bendrika ./bendrika
