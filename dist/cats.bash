# Completion of `cats` for bash: the subcommands and options that its help lists, and paths.

_cats() {
    local word=${COMP_WORDS[COMP_CWORD]} command='' at operands=0 value='' is_listed='' help usage
    COMPREPLY=()
    if ((COMP_CWORD > 1)); then command=${COMP_WORDS[1]}; fi
    case $command in
        -*) return ;;
        help) if ((COMP_CWORD > 2)); then return; else command=''; fi ;;
    esac
    help=$(command cats ${command:+"$command"} --help 2> /dev/null) || return
    # What a word stands for is in the usage, as `publish [OPTIONS] <DIR> [FILE]...`, or beside its option, as `--steps <N>`.
    usage=${help#*'Usage: cats '}
    read -ra usage <<< "${usage/ '[OPTIONS]'/}"
    for ((at = 2; at < COMP_CWORD; at++)); do
        case ${COMP_WORDS[at]} in
            =) ;;
            -*)
                value=${help#*" ${COMP_WORDS[at]} <"}
                if [[ $value == "$help" ]]; then value=''; else value=${value%%>*}; fi
                if [[ $value == LIST ]]; then is_listed=1; fi
                ;;
            *) if [[ $value ]]; then value=''; else ((operands += 1)); fi ;;
        esac
    done
    if [[ $word == = ]]; then word=''; fi
    if [[ $value == LIST ]]; then
        _cats_paths
    elif [[ $value ]]; then
        return
    elif [[ $word == -* ]]; then
        _cats_words "$(sed -n '/^Options:/,/^$/s/^ \{2,\}\(-.\)\{0,1\}[, ]*\(--[a-z0-9-]*\).*/\1 \2/p' <<< "$help")"
    elif [[ ! $command ]]; then
        _cats_words "$(sed -n '/^Commands:/,/^$/s/^  \([a-z]*\) .*/\1/p' <<< "$help")"
    elif [[ ${usage[operands + 1]} == '<FILE>' || ${usage[operands + 1]} == '<DIR>' || (! $is_listed && ${usage[*]} == *'[FILE]...') ]]; then
        _cats_paths
    fi
}

# WORDS: offers those that begin as the word before the cursor does.
_cats_words() {
    mapfile -t COMPREPLY < <(compgen -W "$1" -- "$word")
}

_cats_paths() {
    compopt -o filenames 2> /dev/null
    mapfile -t COMPREPLY < <(compgen -f -- "$word")
}

complete -F _cats cats
