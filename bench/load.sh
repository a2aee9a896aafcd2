#!/usr/bin/env bash
# Times `check` over about 50 MB (or as many as the first argument says) of each of ten kinds of lines, and prints the memory at
# the peak: beside a program that parses line by line into trees of simdjson's and keeps none (where g++ and Debian's
# libsimdjson-dev are installed), `sqlite3` (all lines into a table in memory, then `json_valid`) and `jq empty`, where they are
# installed. It says its machine and makes no claim. Build the program first: (cd crates/jpq && rt run -- /dev/null < /dev/null)
set -euo pipefail
cd "$(dirname "${BASH_SOURCE[0]}")/.."
. bench/timing.sh
megabytes=${1:-50}
lines=$folder/lines.jsonl
echo 'check' > "$folder/check"
has_dom=
if has g++ && g++ -O2 -o "$folder/dom" bench/load/dom.cpp -lsimdjson 2> /dev/null; then has_dom=1; fi
# The memory at the peak in KB.
peak_of() { /usr/bin/time -f '%M' "$@" 2>&1 > /dev/null | tail -1; }
row() {
    local kind=$1 bytes own peak dom=- sqlite=- jq=-
    bench/load/lines.sh "$kind" $((megabytes * 1000000)) > "$lines" || return 0
    bytes=$(stat -c %s "$lines")
    peak=$(peak_of "$program" "$lines" --script "$folder/check")
    own=$(least "$program" "$lines" --script "$folder/check")
    if [ "$has_dom" ]; then dom=$(times_own "$own" "$(least "$folder/dom" "$lines")"); fi
    if has sqlite3; then
        # No line holds the bytes that separate columns here.
        printf '.mode ascii\n.separator "\\037" "\\n"\nCREATE TABLE lines (line TEXT);\n.import %s lines\nSELECT sum(json_valid(line)) FROM lines;\n' "$lines" > "$folder/sql"
        sqlite=$(times_own "$own" "$(least sqlite3 -init "$folder/sql" :memory: .quit)")
    fi
    if has jq; then jq=$(times_own "$own" "$(least jq empty "$lines")"); fi
    awk -v kind="$kind" -v what="$(tell_collection "$lines")" -v seconds="$own" -v bytes="$bytes" -v peak="$peak" -v others="$dom | $sqlite | $jq" 'BEGIN {
        printf "| %s: %s | %.3f | %.0f | %.1f | %s |\n", kind, what, seconds, bytes / 1e6 / seconds, peak * 1024 / bytes, others }'
}
tell_machine
echo '| lines | jpq, seconds | MB/s | memory at the peak, times the file | simdjson | sqlite3 | jq |'
echo '|---|---|---|---|---|---|---|'
for kind in log crlf orders records posts numbers wide array escapes tiny; do row "$kind"; done
