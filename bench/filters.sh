#!/usr/bin/env bash
# Times jpgrep over about 50 MB (or as many as the first argument says) of three kinds of lines, each with a filter, and tells the
# memory at the peak: beside the program that parses line by line with simdjson (where g++ and Debian's libsimdjson-dev are
# installed), and `jq`. It says its machine and makes no claim. Build the program first: (cd crates/jpgrep && rt run -- --help)
set -euo pipefail
cd "$(dirname "${BASH_SOURCE[0]}")/.."
JPQ=${JPGREP:-$PWD/crates/jpgrep/out/jpgrep}
. bench/timing.sh
lines=$folder/lines.jsonl
has_dom=
if has g++ && g++ -O2 -o "$folder/dom" bench/load/dom.cpp -lsimdjson 2> /dev/null; then has_dom=1; fi
# The memory at the peak in KB.
peak_of() { /usr/bin/time -f '%M' "$@" 2>&1 > /dev/null | tail -1; }
row() {
    local kind=$1 filter=$2 own peak dom=- jq=-
    shift 2
    bench/load/lines.sh "$kind" $((megabytes * 1000000)) > "$lines" || return 0
    own=$(least "$program" "$@" "$lines")
    peak=$(peak_of "$program" "$@" "$lines")
    if [ "$has_dom" ]; then dom=$(times_own "$own" "$(least "$folder/dom" "$lines")"); fi
    if has jq; then jq=$(times_own "$own" "$(least jq -c "$filter" "$lines")"); fi
    printf '| %s: %s | `jpgrep %s` | %s | %.1f | %s | %s |\n' "$kind" "$(tell_collection "$lines")" "$*" "$own" \
        "$(awk -v peak="$peak" 'BEGIN { print peak / 1000 }')" "$dom" "$jq"
}
megabytes=${1:-50}
tell_machine
echo '| lines | command | jpgrep, seconds | memory at the peak, MB | simdjson, parsing alone | jq |'
echo '|---|---|---|---|---|---|'
row log 'select(.request.status == 204)' -w '@.request.status==204'
row orders '.items[] | select(.price > 90).name' -o '$.items[?@.price>90].name'
row tiny '.a' -o '$.a'
