# Completes in bash the commands, options and files of ick, ick-outcomes, ick-step and ick-stages, and the options of
# the tools ick-NAME as their --help lists them.

_ick_words() { mapfile -t COMPREPLY < <(compgen -W "$1" -- "$2"); }

_ick_files() {
    compopt -o filenames
    mapfile -t COMPREPLY < <(compgen -f -- "$1")
}

# Completes one of these options, or a file. The second list has the options whose values are no files.
_ick_arguments() {
    local word=${COMP_WORDS[COMP_CWORD]} before=${COMP_WORDS[COMP_CWORD - 1]}
    case " $2 " in
        *" $before "*) return ;;
    esac
    case $word in
        -*) _ick_words "$1" "$word" ;;
        *) _ick_files "$word" ;;
    esac
}

# The command is the first argument that is no option, or `run` if there is none.
_ick() {
    local word=${COMP_WORDS[COMP_CWORD]} command='' options argument
    for argument in "${COMP_WORDS[@]:1:COMP_CWORD-1}"; do
        case $argument in
            run | runs | list | check | help) command=$argument && break ;;
        esac
    done
    case $command in
        '')
            _ick_words 'run runs list check help --help' "$word"
            return
            ;;
        run) options='-b --choices --seed --limit --help' ;;
        runs) options='-b --from --count --limit --help' ;;
        help)
            _ick_words 'run runs list check' "$word"
            return
            ;;
        *) options='--help' ;;
    esac
    _ick_arguments "$options" '--choices --from --seed --count --limit'
}

_ick_outcomes() {
    _ick_arguments '-b --limit --most --memory --exact --total --ends --states --asked --help' '--limit --most --memory'
}

_ick_step() { _ick_arguments '-b --input --choices --seed --limit --trace --help' '--choices --seed --limit'; }

_ick_stages() {
    _ick_arguments '-b --tree --operations --parts --rules --instructions --traces --statement --help' '--statement'
}

_ick_tool() {
    local word=${COMP_WORDS[COMP_CWORD]} commands='' command=''
    case ${1##*/} in
        ick-parts) commands='begin plan part status join verify check' ;;
        ick-wimp) commands='in out' ;;
    esac
    [ "${1##*/}" != ick-parts ] || [ "$COMP_CWORD" = 1 ] || command=${COMP_WORDS[1]}
    case $COMP_CWORD:$word in
        *:-*) _ick_words "$("$1" ${command:+"$command"} --help 2>/dev/null </dev/null | grep -oE -e '--[a-z][a-z-]*' | sort -u)" "$word" ;;
        1:*) if [ "$commands" ]; then _ick_words "$commands" "$word"; else _ick_files "$word"; fi ;;
        *) _ick_files "$word" ;;
    esac
}

complete -F _ick ick ick72
for _ick_name in $(compgen -c ick-); do complete -F _ick_tool "$_ick_name"; done
unset _ick_name
complete -F _ick_outcomes ick-outcomes
complete -F _ick_step ick-step
complete -F _ick_stages ick-stages
