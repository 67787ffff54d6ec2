# Completion of qwasm's words, for bash.
_qwasm() {
    local word=${COMP_WORDS[COMP_CWORD]} before=${COMP_WORDS[COMP_CWORD - 1]}
    case $COMP_CWORD,${COMP_WORDS[1]} in
    1,*) mapfile -t COMPREPLY < <(compgen -W "run compile check gen" -- "$word") ;;
    *,run | *,gen)
        case $before in --quantum | --pages | --steps | --null | --parts) return ;; esac
        local options="--quantum --pages --steps --stats"
        [ "${COMP_WORDS[1]}" = gen ] || options+=" --null --parts"
        case $word in
        -*) mapfile -t COMPREPLY < <(compgen -W "$options" -- "$word") ;;
        *) [ "${COMP_WORDS[1]}" = gen ] || mapfile -t COMPREPLY < <(compgen -f -- "$word") ;;
        esac
        ;;
    *,compile)
        case $before in --statement) return ;; esac
        case $word in
        -*) mapfile -t COMPREPLY < <(compgen -W "--statement" -- "$word") ;;
        *) mapfile -t COMPREPLY < <(compgen -f -- "$word") ;;
        esac
        ;;
    *,check) mapfile -t COMPREPLY < <(compgen -f -- "$word") ;;
    esac
}
complete -o filenames -F _qwasm qwasm

# That of qwasm-layout's words, which are those of `compile`.
_qwasm_layout() {
    local word=${COMP_WORDS[COMP_CWORD]} before=${COMP_WORDS[COMP_CWORD - 1]}
    case $before in --statement) return ;; esac
    case $word in
    -*) mapfile -t COMPREPLY < <(compgen -W "--statement" -- "$word") ;;
    *) mapfile -t COMPREPLY < <(compgen -f -- "$word") ;;
    esac
}
complete -o filenames -F _qwasm_layout qwasm-layout
