# Completion of bash for liq: its words, and behind help the verbs.
_liq() {
    case $COMP_CWORD in
        1) mapfile -t COMPREPLY < <(compgen -W 'run serve staking rewards state report audit follow gen help version' -- "${COMP_WORDS[1]}") ;;
        2)
            COMPREPLY=()
            [ "${COMP_WORDS[1]}" = help ] && mapfile -t COMPREPLY < <(compgen -W 'price advance fund take send open adjust close provide
                withdraw gain_to_trove liquidate liquidate_lowest redeem claim rotate
                wallet trove deposit pools system next_number run serve staking rewards state report audit follow gen' -- "${COMP_WORDS[2]}")
            ;;
        *) COMPREPLY=() ;;
    esac
}
complete -F _liq liq
