# Completion of supervisord's words for bash. Source this file, or install it as
# bash-completion/completions/supervisord in a directory for data.

_supervisord_options=(-c --configuration --journal --journal-file -n --nodaemon)

_supervisord() {
    local cur=${COMP_WORDS[COMP_CWORD]} before=${COMP_WORDS[COMP_CWORD - 1]} word
    COMPREPLY=()
    case $before in
        -c | --configuration | --journal-file)
            compopt -o filenames 2>/dev/null
            mapfile -t COMPREPLY < <(compgen -f -- "$cur")
            return ;;
    esac
    for word in "${_supervisord_options[@]}"; do
        [[ $word == "$cur"* ]] && COMPREPLY+=("$word")
    done
}

complete -F _supervisord supervisord
