# Completes the command lines of jpq and jpgrep in fish: the options that `--help` lists, files, and for jpq the commands after -c
# and --command. A package installs it as usr/share/fish/vendor_completions.d/jpq.fish and jpgrep.fish; elsewhere use
# `source completion.fish`.

# The options of a program, a line each, with what each is for.
function __jpq_options
    command $argv[1] --help 2>/dev/null | string match -r '^ +-.*' |
        while read --line text
            set --local told (string match -r -g '^ *(?:(-\w), )? *(--[a-z-]+)?(?: <\w+>)* +(\S.*)$' -- $text)
            for option in $told[1..-2]
                test -n "$option"; and printf '%s\t%s\n' $option $told[-1]
            end
        end
end

# The commands of jpq, a line each, with what each does.
function __jpq_commands
    command jpq --help 2>/dev/null | sed -n '/^Commands/,/^$/s/^  \([a-z]*\)\([ A-Z]*\) \(.*\)/\1\t\3/p'
end

for program in jpq jpgrep
    complete --command $program --condition 'string match -q -- "-*" (commandline --current-token)' \
        --no-files --arguments "(__jpq_options $program)"
end
complete --command jpq --short-option c --long-option command --exclusive --arguments '(__jpq_commands)'
complete --command jpq --long-option script --require-parameter --force-files
