#!/usr/bin/env bash
# Runs the benchmarks of both programs, one after another, and prints docs/BENCHMARKS.md. It wants a quiet machine, up to three
# quarters of an hour and the built programs: (cd crates/jpq && rt run -- /dev/null < /dev/null);
# (cd crates/jpgrep && rt run -- --version)
#
#     bench/all.sh > docs/BENCHMARKS.md
set -euo pipefail
cd "$(dirname "${BASH_SOURCE[0]}")/.."
section() {
    echo
    echo "## $1"
    echo
    echo "$2"
    echo
    bash "bench/$3.sh" | grep -v '^machine:'
}
cat << TEXT
# Benchmarks

Made on $(date -u '+%Y-%m-%d') by \`bench/all.sh\`, in one run, on a machine with $(nproc) processors
($(sed -n 's/^model name[^:]*: //p' /proc/cpuinfo | head -1), $(uname -sr)) and a load of $(cut -d ' ' -f 1 /proc/loadavg) as it began, beside
$(jq --version 2> /dev/null || echo 'no jq'), $(gojq --version 2> /dev/null | head -1 || echo 'no gojq'), sqlite3 $(sqlite3 --version 2> /dev/null | cut -d ' ' -f 1) and simdjson $(dpkg-query -W -f '${Version}' libsimdjson-dev 2> /dev/null || echo 'of none').
Times are seconds by the clock, those of edits seconds of the processor; of each program, jpq too, the shortest of ${RUNS:-3} runs.
A virtual machine goes up and down by half within a run, so what stands in brackets is rough.

What the tables do not show: a machine of another kind, or one with other work; files that do not fit in memory; how the others do
when they are set up for the task by somebody who knows them well. jpq keeps all lines and their trees in memory and refuses lines
with equal names, lone surrogates and deep nesting; the program on simdjson keeps nothing and tests none of these, and scans short
lines many at once. jq and gojq write values without a line number or a path. Nothing here is proved, and no test asks for it.
TEXT
section Loading '`check`: every line is read and kept, and the refused ones are listed. In brackets: the time of jpq, as a multiple of the other'"'"'s.' load
section Filters 'jpgrep reads a stream, answers each line and forgets it. In brackets: the time of jpgrep, as a multiple of the other'"'"'s.' filters
section 'Ten questions of a day with logs' 'A cell has how many characters the command has, and the seconds of the processor that it takes; of sqlite3 with the words that make the table.' questions
section Queries 'The seconds of the whole program, and in brackets those beyond its loading.' queries
section 'Look-ups by an index' 'An index on a member, and 1,000 look-ups by it.' plans
section 'Edits under an index' 'As many edits as there are lines, of some 200 bytes each: each line replaced by one that differs in one member, or as many
appended, under an index on one member and on sixteen; each line refused and whole again, under none. Seconds of the processor, with
loading and indexing. In brackets: the time of jpq, as a multiple of the other'"'"'s.' edits
