# Completion of pespbench for bash.
_pespbench() {
    local word=${COMP_WORDS[COMP_CWORD]} before=${COMP_WORDS[COMP_CWORD - 1]}
    case $before in
    --period) COMPREPLY=($(compgen -W '10 15 20 30 60 120 1440' -- "$word")) ;;
    --fixed | --times) COMPREPLY=($(compgen -f -- "$word")) ;;
    *)
        if [[ $word == -* ]]; then
            COMPREPLY=($(compgen -W '--period --fixed --times --check --help --version' -- "$word"))
        else
            COMPREPLY=($(compgen -f -- "$word"))
        fi
        ;;
    esac
}
complete -o filenames -F _pespbench pespbench
