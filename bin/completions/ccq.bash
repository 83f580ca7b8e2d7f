# Completions of `ccq` for bash.
_ccq() {
    local word=${COMP_WORDS[COMP_CWORD]} before=${COMP_WORDS[COMP_CWORD - 1]} command=${COMP_WORDS[1]-}
    local commands='play audit judge show drive'
    local -A options=(
        [judge]='--follow --page --times --capacity --skew --from --until'
        [show]='--trace'
        [drive]='--senders --receivers --items --capacity --bound'
    )
    COMPREPLY=()
    if [ "$COMP_CWORD" -eq 1 ]; then
        mapfile -t COMPREPLY < <(compgen -W "$commands help --help --version" -- "$word")
        return
    fi
    case $command in
    help)
        mapfile -t COMPREPLY < <(compgen -W "$commands" -- "$word")
        return
        ;;
    esac
    # The word after an option of numbers is a number
    case $before in
    --page | --trace) ;;
    *) [[ " ${options[$command]-} " != *" $before "* ]] || return ;;
    esac
    case $word in
    -*) mapfile -t COMPREPLY < <(compgen -W "${options[$command]-} --help" -- "$word") ;;
    *) [ "$command" = drive ] || mapfile -t COMPREPLY < <(compgen -f -- "$word") ;;
    esac
}
complete -o filenames -F _ccq ccq
