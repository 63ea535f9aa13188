# What bash completes behind dyntab, ./dyntab and tools/why: source this file, or put it into ~/.local/share/bash-completion/completions
# under the name dyntab.

# The options that may still come, by what is done and what is given.
_dyntab_options() {
    local word before='' job='' given=' ' option
    for word in "${COMP_WORDS[@]:1:COMP_CWORD-1}"; do
        if [ "$word" != = ]; then
            [ "$before" = --do ] && job=$word
            before=$word
            given+="$word "
        fi
    done
    case $given in
    *' --changes '*) given+='--feeds ' ;;
    *' --feeds '*) given+='--changes --first ' ;;
    *' --first '*) given+='--feeds ' ;;
    esac
    case $job in
    load) set -- --do --seed --lines ;;
    explain) set -- --do --script ;;
    batch) set -- --do --script --changes --feeds --first ;;
    *) set -- --do --script --changes --feeds --order ;;
    esac
    for option; do
        case $given in *" $option "*) ;; *) echo "$option" ;; esac
    done
}

_dyntab() {
    local now=${COMP_WORDS[COMP_CWORD]} before=${COMP_WORDS[COMP_CWORD - 1]}
    if [ "$now" = = ]; then
        now=
    elif [ "$before" = = ]; then
        before=${COMP_WORDS[COMP_CWORD - 2]}
    fi
    COMPREPLY=()
    case $before in
    --do) mapfile -t COMPREPLY < <(compgen -W 'run batch explain load' -- "$now") ;;
    --script | --changes | --order | --feeds)
        compopt -o filenames
        mapfile -t COMPREPLY < <(compgen -f -- "$now")
        ;;
    --first | --seed | --lines) ;;
    *) mapfile -t COMPREPLY < <(compgen -W "$(_dyntab_options)" -- "$now") ;;
    esac
}

complete -F _dyntab dyntab why
