# Completion of supervisorctl's words for bash. Source this file, or install it as
# bash-completion/completions/supervisorctl in a directory for data.

_supervisorctl_options=(-c -s -u -p)
_supervisorctl_commands=(status start stop restart signal clear tail maintail pid version shutdown)
_supervisorctl_signals=(TERM HUP INT QUIT KILL USR1 USR2)

# The names of processes, one a line, from the server that these options name. It is asked for a
# second at most, and not at all where nothing can hold it to that, or where an option is quoted.
# Names that a shell would read as more than a word are left out.
_supervisorctl_names() {
    local name state rest
    type -P timeout >/dev/null || return 0
    [[ "$*" != *[\'\"\\\$\`]* ]] || return 0
    timeout 1 supervisorctl "${@/#\~\//$HOME/}" status </dev/null 2>/dev/null |
        while read -r name state rest; do
            case $state in
                STOPPED | STARTING | RUNNING | BACKOFF | STOPPING | EXITED | FATAL | UNKNOWN)
                    [[ $name =~ ^[A-Za-z0-9_.@:+-]+$ ]] && printf '%s\n' "$name" ;;
            esac
        done
}

# Offers those of the words that begin with what is typed.
_supervisorctl_offer() {
    local word
    for word in "$@"; do
        [[ $word == "$cur"* ]] && COMPREPLY+=("$word")
    done
}

# Offers files after this prefix.
_supervisorctl_offer_files() {
    local file
    compopt -o filenames 2>/dev/null
    while read -r file; do
        COMPREPLY+=("$1$file")
    done < <(compgen -f -- "${cur#"$1"}")
}

# Offers the names of processes, and with `groups` those of groups too, as `group:*`.
_supervisorctl_offer_names() {
    local name group groups=' '
    while read -r name; do
        _supervisorctl_offer "$name"
        group=${name%%:*}
        if [[ $1 == groups && $name == *:* && $groups != *" $group "* ]]; then
            groups+="$group "
            _supervisorctl_offer "$group:\\*"
        fi
    done < <(_supervisorctl_names "${options[@]}")
}

# Offers what may follow the words of a command.
_supervisorctl_offer_arguments() {
    case $1:$# in
        status:*) _supervisorctl_offer_names groups ;;
        start:* | stop:* | restart:*)
            _supervisorctl_offer all
            _supervisorctl_offer_names groups ;;
        signal:1) _supervisorctl_offer "${_supervisorctl_signals[@]}" ;;
        signal:*)
            _supervisorctl_offer all
            _supervisorctl_offer_names groups ;;
        clear:*)
            _supervisorctl_offer all
            _supervisorctl_offer_names ;;
        pid:1) _supervisorctl_offer_names ;;
        tail:1)
            _supervisorctl_offer -f
            _supervisorctl_offer_names ;;
        tail:*)
            if [[ $2 == -* && $# == 2 ]]; then
                _supervisorctl_offer_names
            elif [[ $2 == -* && $# == 3 || $2 != -* && $# == 2 ]]; then
                _supervisorctl_offer stdout stderr
            fi ;;
    esac
}

# Offers what may follow an option that wants a value.
_supervisorctl_offer_value() {
    case $1 in
        -c) _supervisorctl_offer_files '' ;;
        -s)
            if [[ $cur == unix://* ]]; then
                _supervisorctl_offer_files unix://
            else
                compopt -o nospace 2>/dev/null
                _supervisorctl_offer http:// unix://
            fi ;;
    esac
}

_supervisorctl() {
    local line=${COMP_LINE:0:COMP_POINT} cur='' at words options=()
    COMPREPLY=()
    # Readline cuts words at colons, so the line is cut anew, at white space.
    read -ra words <<<"$line"
    while ((${#words[@]} > 0)) && [[ ${words[0]} != "$1" ]]; do
        words=("${words[@]:1}")
    done
    if [[ $line != *[[:space:]] ]]; then
        at=$((${#words[@]} - 1))
        cur=${words[at]}
        words=("${words[@]:0:at}")
    fi
    words=("${words[@]:1}")
    while [[ ${words[0]} == -* ]]; do
        case ${words[0]}:${#words[@]} in
            -[csup]:1)
                _supervisorctl_offer_value "${words[0]}"
                break ;;
            -[csup]:*)
                options+=("${words[@]:0:2}")
                words=("${words[@]:2}") ;;
            *)
                options+=("${words[0]}")
                words=("${words[@]:1}") ;;
        esac
    done
    if ((${#words[@]} == 0)); then
        if [[ $cur == -* ]]; then
            _supervisorctl_offer "${_supervisorctl_options[@]}"
        else
            _supervisorctl_offer "${_supervisorctl_commands[@]}"
        fi
    elif [[ ${words[0]} != -* ]]; then
        _supervisorctl_offer_arguments "${words[@]}"
    fi
    # What stands before the last colon isn't part of readline's word.
    if [[ $cur == *:* && $COMP_WORDBREAKS == *:* ]]; then
        COMPREPLY=("${COMPREPLY[@]#"${cur%"${cur##*:}"}"}")
    fi
}

complete -F _supervisorctl supervisorctl
