# Completes the words of stabsim in bash. The README says where to put it; to try it: . completions/stabsim.bash
_stabsim() {
    local word=${COMP_WORDS[COMP_CWORD]} before=${COMP_WORDS[COMP_CWORD-1]} command=${COMP_WORDS[1]} choices=
    local commands="sample detect stabilisers edit check deterministic faults coins distance propagate propagate_each"
    COMPREPLY=()
    # bash takes the = of --out_format=dets for a word by itself.
    if [ "$word" = "=" ]; then
        word=
    elif [ "$before" = "=" ]; then
        before=${COMP_WORDS[COMP_CWORD-2]}
    fi
    case $before in
    --in | --out | --coins_in)
        compopt -o filenames 2>/dev/null
        mapfile -t COMPREPLY < <(compgen -f -- "$word")
        return
        ;;
    --out_format) choices="01 b8 r8 hits dets" ;;
    --letters) choices="all XZ" ;;
    --shots | --first_shot | --seed | --coins | --qubits | --stride | --most | --observable | --at) return ;;
    *)
        case $command in
        sample) choices="--shots --first_shot --out_format --seed --coins --coins_in --in --out --help" ;;
        detect) choices="--shots --first_shot --out_format --seed --coins --coins_in --in --out --append_observables --help" ;;
        stabilisers | stabilizers) choices="--seed --coins --coins_in --in --out --help" ;;
        edit) choices="--framed --qubits --stride --seed --coins --coins_in --in --out --help" ;;
        check) choices="--in --out --help" ;;
        deterministic) choices="--out_format --explain --in --out --help" ;;
        faults) choices="--out_format --everywhere --deterministic_only --in --out --help" ;;
        coins) choices="--out_format --in --out --help" ;;
        distance) choices="--everywhere --letters --most --graphlike --observable --each --table --wcnf --count --part --deterministic_only --progress --in --out --help" ;;
        propagate) choices="--at --every --in --out --help" ;;
        propagate_each) choices="--everywhere --in --out --help" ;;
        help) [ "$COMP_CWORD" -eq 2 ] && choices=$commands ;;
        esac
        [ "$COMP_CWORD" -eq 1 ] && choices="$commands help --help --version"
        ;;
    esac
    mapfile -t COMPREPLY < <(compgen -W "$choices" -- "$word")
}
complete -F _stabsim stabsim ./stabsim
