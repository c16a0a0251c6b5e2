# Completions of workbench(1) for bash: source this file, or install it as `workbench` in bash-completion's folder.

_workbench() {
    local commands='run check list explain procedures help'
    local options='-h --help -V --version'
    local word=${COMP_WORDS[COMP_CWORD]} subcommand='' place=0 argument ended=''
    COMPREPLY=()

    # The subcommand, and the place of the current word among its arguments, from 1 on.
    for argument in "${COMP_WORDS[@]:1:COMP_CWORD-1}"; do
        if [[ $argument == -- && -z $ended ]]; then
            ended=yes
        elif [[ $argument == -* && -z $ended ]]; then
            continue
        elif [[ -z $subcommand ]]; then
            subcommand=$argument
        else
            place=$((place + 1))
        fi
    done
    place=$((place + 1))

    if [[ $word == -* && -z $ended ]]; then
        [[ -n $subcommand ]] && options='-h --help'
        [[ $subcommand == help ]] && options=''
        mapfile -t COMPREPLY < <(compgen -W "$options" -- "$word")
        return
    fi
    case $subcommand:$place in
        :*) mapfile -t COMPREPLY < <(compgen -W "$commands" -- "$word") ;;
        help:1) mapfile -t COMPREPLY < <(compgen -W "$commands" -- "$word") ;;
        run:[12] | explain:[12] | check:1 | list:1)
            compopt -o filenames 2>/dev/null
            mapfile -t COMPREPLY < <(compgen -f -- "$word")
            ;;
    esac
}

complete -F _workbench workbench
