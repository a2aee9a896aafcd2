# What the scripts of the gate share that try one thing after the other: `shows` counts checks, `needs` says which programs the
# next ones want, and `ends` prints the sums. A check whose program is away is skipped, and that is said once for each program.
passed=0
failed=0
skipped=0
away=
told_away='  '

# compiles COMPILER LANGUAGE: whether a compiler finds its headers: one without them is of no use.
compiles() { command -v "$1" > /dev/null && echo '#include <stdlib.h>' | "$1" -x "$2" -fsyntax-only - 2> /dev/null; }
# is_there NAME: whether a program is on the path, or what else has to be installed can be used.
is_there() {
    case $1 in
        cc) compiles cc c ;;
        c++) compiles c++ c++ ;;
        root) [ "$(id -u)" = 0 ] ;;
        venv) python3 -c 'import ensurepip, venv' 2> /dev/null ;;
        # in the Python that is first on the path, or in Debian's
        pandas) python3 -c 'import pandas' 2> /dev/null || /usr/bin/python3 -c 'import pandas' 2> /dev/null ;;
        *) command -v "$1" > /dev/null ;;
    esac
}
# needs [NAME..]: where one of these is not there, the checks up to the next `needs` are skipped.
needs() {
    local name
    away=
    for name in "$@"; do
        is_there "$name" || away=$name
    done
    case "$told_away" in
        *" $away "*) ;;
        *)
            echo "$(basename "$0"): skipped what needs $away, which is not here"
            told_away="$told_away$away " ;;
    esac
}
# shows NAME COMMAND..: runs a command that has to end with 0; if it does not, prints what it says.
shows() {
    if [ -n "$away" ]; then
        skipped=$((skipped + 1))
    elif "${@:2}" > said 2>&1; then
        passed=$((passed + 1))
    else
        echo "$1: NOT AS STATED: $(head -c 300 said)"
        failed=$((failed + 1))
    fi
}
# ends: prints the sums; its status is 1 where a check failed.
ends() {
    echo "$(basename "$0"): $passed passed, $failed failed, $skipped skipped"
    [ "$failed" -eq 0 ]
}
