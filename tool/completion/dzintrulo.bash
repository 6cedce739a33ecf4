# Completion of dzintrulo for bash: commands, the options of each, files, and the settings that get can print.

# The options of a command.
_dzintrulo_options() {
    local names='-e --env --env-file' all='--color --diagnostics --stdin-name -h --help'
    case $1 in
    resolve) echo "-a --ascii -c --compact -o --output --budget $names $all" ;;
    check) echo "-v --verbose $names $all" ;;
    get) echo "-a --ascii -c --compact -r --raw --um --for $names $all" ;;
    diff) echo "-a --ascii -c --compact $names $all" ;;
    profile | trail) echo "--for $names $all" ;;
    dump | explain | help) echo "$all" ;;
    esac
}

# The settings of a file or a sheet: what it has and an empty file has not. In a repository dzintrulo may be a script that
# builds first, so that only an installed one is asked.
_dzintrulo_settings() {
    [[ ${COMP_WORDS[0]} == dzintrulo && -f $1 ]] || return 0
    dzintrulo diff - "$1" 2>/dev/null </dev/null | sed -n 's/^+ \([A-Za-z0-9_.-]*\) = .*/\1/p'
}

# What may stand behind an option; fails if no word of its own belongs to it.
_dzintrulo_word() {
    case $1 in
    -e | --env) mapfile -t COMPREPLY < <(compgen -e -- "$2") ;;
    --color) mapfile -t COMPREPLY < <(compgen -W 'auto always never' -- "$2") ;;
    --diagnostics) mapfile -t COMPREPLY < <(compgen -W 'text json' -- "$2") ;;
    --budget) compopt +o default ;;
    -o | --output | --for | --env-file | --stdin-name) ;; # files, by default
    *) return 1 ;;
    esac
}

# The words behind the command that are no options, before the current one: into `operands`, and whether -- ended options.
_dzintrulo_operands() {
    local at word
    for ((at = 2; at < COMP_CWORD; at++)); do
        word=${COMP_WORDS[at]}
        if [[ $word == '=' ]]; then # NAME=TEXT and --WORD=TEXT are three words here
            at=$((at + 1))
        elif [[ -z $ended && $word == -- ]]; then
            ended=yes
        elif [[ -n $ended || $word != -?* ]]; then
            operands+=("$word")
        elif [[ $word =~ ^(-[a-z]*[eo]|--(env|env-file|output|for|budget|color|diagnostics|stdin-name))$ && ${COMP_WORDS[at + 1]-} != '=' ]]; then
            at=$((at + 1)) # the word that belongs to it
        fi
    done
}

_dzintrulo() {
    local word=${COMP_WORDS[COMP_CWORD]} before=${COMP_WORDS[COMP_CWORD - 1]} command=${COMP_WORDS[1]} ended='' offered=''
    local commands='resolve check get diff profile trail dump explain help' operands=()
    COMPREPLY=()
    if [[ $COMP_CWORD -eq 1 ]]; then
        mapfile -t COMPREPLY < <(compgen -W "$commands -h --help --version" -- "$word")
        return
    fi
    if [[ $word == '=' ]]; then
        word=''
    elif [[ $before == '=' ]]; then
        before=${COMP_WORDS[COMP_CWORD - 2]}
    fi
    _dzintrulo_operands
    if [[ -z $ended ]] && _dzintrulo_word "$before" "$word"; then return; fi
    if [[ -z $ended && $word == -* ]]; then
        offered=$(_dzintrulo_options "$command")
    elif [[ $command == help ]]; then
        offered=$commands
    elif [[ $command == explain ]]; then
        offered='1 2 3 4 5 6 7 8 9 10 11 12 13 14 15 16 17 20 21 22 23 24 39 40 41 42 43'
    elif [[ $command == get && ${#operands[@]} -gt 0 ]]; then
        offered=$(_dzintrulo_settings "${operands[0]}")
    else
        return
    fi
    compopt +o default
    mapfile -t COMPREPLY < <(compgen -W "$offered" -- "$word")
}

complete -o default -F _dzintrulo dzintrulo
