#compdef jpq jpgrep
# Completes the command lines of jpq and jpgrep in zsh: the options that `--help` lists, files, and for jpq the commands after -c
# and --command. A package installs it as usr/share/zsh/vendor-completions/_jpq and _jpgrep; elsewhere put it as _jpq into a folder
# of $fpath, before `compinit`.

# The options of a program, a line each, with a colon before what each is for.
_jpq_options() {
    command $1 --help 2> /dev/null | sed -n '/^Options/,/^$/p' | grep -o -E -- '^ +(-\w(, +)?)?(--[a-z-]+)?( <\w+>)* +.*' |
        while read -r line; do
            local about=${line##*  }
            for option in ${(s:, :)${line%%  *}}; do
                print -r -- "${option%% *}:$about"
            done
        done
}

# The commands of jpq, a line each, with a colon before what each does.
_jpq_commands() { command jpq --help 2> /dev/null | sed -n '/^Commands/,/^$/s/^  \([a-z]*\)\([ A-Z]*\)  *\(.*\)/\1:\3/p'; }

_jpq() {
    local -a found
    if [[ $service == jpq && $words[CURRENT-1] == (-c|--command) ]]; then
        found=(${(f)"$(_jpq_commands)"})
        _describe -t commands command found
    elif [[ $PREFIX == -* ]]; then
        found=(${(f)"$(_jpq_options $words[1])"})
        _describe -o -t options option found
    else
        _files
    fi
}

# Where this file is read as a function of $fpath, it is called to complete.
[[ ${funcstack[1]:-} != _jp* ]] || _jpq "$@"
