# Completion of xatm for bash.
_xatm() {
    local cur=${COMP_WORDS[COMP_CWORD]} prev=${COMP_WORDS[COMP_CWORD - 1]} command= words= word
    COMPREPLY=()
    for word in "${COMP_WORDS[@]:1:COMP_CWORD - 1}"; do
        case $word in
            run | check | explain | chart | threads | serve | log | help)
                command=$word
                break
                ;;
        esac
    done
    case $command:$prev in
        run:--log)
            compopt -o default
            return
            ;;
        explain:--output | explain:-o)
            compopt -o default
            return
            ;;
        chart:--output | chart:-o)
            compopt -o default
            return
            ;;
        threads:--log)
            compopt -o default
            return
            ;;
        serve:--name)
            :
            return
            ;;
        serve:--rm)
            :
            return
            ;;
        serve:--log)
            compopt -o default
            return
            ;;
        serve:--at-least)
            :
            return
            ;;
        log:--add-rm | log:--rename-rm)
            :
            return
            ;;
    esac
    case $command in
        '') words='run check explain chart threads serve log help --help --version' ;;
        run) words='--trace --json --log --help' && compopt -o default ;;
        check) words='--explain --json --help' && compopt -o default ;;
        explain) words='--output --help' && compopt -o default ;;
        chart) words='--output --help' && compopt -o default ;;
        threads) words='--log --help' && compopt -o default ;;
        serve) words='--name --rm --log --at-least --moves --help' ;;
        log) words='--explain --json --make --shut --open --add-rm --rename-rm --help' && compopt -o default ;;
        help) words='run check explain chart threads serve log help' ;;
    esac
    [[ $command && $command != help && $cur != -* ]] || mapfile -t COMPREPLY < <(compgen -W "$words" -- "$cur")
}
complete -F _xatm xatm
