# Completes the command lines of jpq and jpgrep in bash: the options that `--help` lists, files, and for jpq the commands after
# -c and --command. A package installs it as usr/share/bash-completion/completions/jpq and jpgrep; elsewhere use
# `. completion.bash`.

# Puts the commands of a script that begin with a word into COMPREPLY. One that takes an argument opens a quote, in which the
# argument is typed, unless a quote is open already.
_jpq_commands() {
    local word=$1 quote=$2 help=$3 command argument
    while read -r command argument _; do
        [[ $command == "$word"* ]] || continue
        case $argument in
            [A-Z]) COMPREPLY+=("$quote$command ") ;;
            *) COMPREPLY+=("$command") ;;
        esac
    done < <(sed -n '/^Commands/,/^$/s/^  //p' <<< "$help")
    [[ ${#COMPREPLY[@]} -eq 1 && ${COMPREPLY[0]} != *' ' ]] || compopt -o nospace 2> /dev/null
}

_jpq() {
    local word=$2 last=${COMP_WORDS[COMP_CWORD]} before=$3 help
    COMPREPLY=()
    help=$("$1" --help 2> /dev/null) || return 0
    if [[ $before == = ]]; then
        before=${COMP_WORDS[COMP_CWORD - 2]}
    fi
    case $before in
        -c | --command)
            case $last in
                [\"\']*) _jpq_commands "${word#[\"\']}" '' "$help" ;;
                *) _jpq_commands "$word" "'" "$help" ;;
            esac ;;
        --script) ;; # what is left empty is completed by the names of files
        *)
            if [[ $word == -* ]]; then
                help=$(sed -n '/^Options/,/^$/s/^  *\(-[^<]*\).*/\1/p' <<< "$help" | grep -o -E -- '(^|[ ,])--?[a-zA-Z]+')
                mapfile -t COMPREPLY < <(compgen -W "${help//,/ }" -- "$word")
            fi ;;
    esac
}

# Completes the command line of jpgrep: its options, and files.
_jpgrep() {
    local word=$2 help
    COMPREPLY=()
    [[ $word == -* ]] || return 0
    help=$("$1" --help 2> /dev/null | sed -n '/^Options/,/^$/s/^  *\(-[^<]*\).*/\1/p' | grep -o -E -- '(^|[ ,])--?[a-zA-Z-]+')
    mapfile -t COMPREPLY < <(compgen -W "${help//,/ }" -- "$word" | sort -u)
}
complete -o default -F _jpq jpq
complete -o default -F _jpgrep jpgrep
