#!/usr/bin/env bash
# Times queries over about 40 MB of orders, beside `jq`, `gojq` and `sqlite3` where they are installed (Debian has them). A cell
# tells the seconds of the whole program by the clock, and in brackets those beyond its loading: for jpq beyond a script of no
# command, for `jq` and `gojq` beyond `empty`, for `sqlite3` beyond a table in memory with a line a row. It says its machine and
# makes no claim. Build the program first: (cd crates/jpq && rt run -- /dev/null < /dev/null)
set -euo pipefail
cd "$(dirname "${BASH_SOURCE[0]}")/.."
. bench/timing.sh
lines=$folder/lines.jsonl
script() { printf '%s\n' "$@" > "$folder/script"; }
sql() {
    { printf '.mode ascii\n.separator "\\037" "\\n"\nCREATE TABLE lines (line TEXT);\n.import %s lines\n.mode list\n' "$lines"; printf '%s\n' "$@"; } > "$folder/sql"
}
run_jpq() { "$program" "$lines" --script "$folder/script"; }
run_sql() { sqlite3 :memory: ".read $folder/sql"; }
tell_bases() {
    : > "$folder/script"; jpq_base=$(least run_jpq)
    if has jq; then jq_base=$(least jq empty "$lines"); fi
    if has gojq; then gojq_base=$(least gojq empty "$lines"); fi
    if has sqlite3; then sql ''; sqlite_base=$(least run_sql); fi
    echo "| loading alone | $jpq_base | ${jq_base:--} | ${gojq_base:--} | ${sqlite_base:--} |"
}
row() {
    local query=$1 filter=$2 statement=$3 jpq jq=- gojq=- sqlite=-
    script "query $query"
    jpq=$(beside "$(least run_jpq)" "$jpq_base")
    if has jq && [ "$filter" ]; then jq=$(beside "$(least jq -c "$filter" "$lines")" "$jq_base"); fi
    if has gojq && [ "$filter" ]; then gojq=$(beside "$(least gojq -c "$filter" "$lines")" "$gojq_base"); fi
    if has sqlite3 && [ "$statement" ]; then sql "$statement"; sqlite=$(beside "$(least run_sql)" "$sqlite_base"); fi
    echo "| \`${query//|/\\|}\` | $jpq | $jq | $gojq | $sqlite |"
}
head_of_table() { printf '| %s | jpq | jq | gojq | sqlite3 |\n|---|---|---|---|---|\n' "$1"; }
tell_machine
bench/load/lines.sh orders 40000000 > "$lines"
head_of_table "orders: $(tell_collection "$lines")"
tell_bases
row '$.total' '.total' "SELECT json_extract(line, '\$.total') FROM lines;"
row '$[?$.status=='"'late'"']' 'select(.status == "late") | .[]' "SELECT value FROM lines, json_each(line) WHERE json_extract(line, '\$.status') = 'late';"
row '$.items[?@.price>90].name' '.items[] | select(.price > 90) | .name' "SELECT json_extract(value, '\$.name') FROM lines, json_each(line, '\$.items') WHERE json_extract(value, '\$.price') > 90;"
row '$..name' '.. | objects | select(has("name")) | .name' "SELECT value FROM lines, json_tree(line) WHERE key = 'name';"
row '$.items[?match(@.name,"pen [0-3]")].price' '.items[] | select(.name | test("^(pen [0-3])$")) | .price' ''
row '$[?search(@,"(twice|thrice)")]' '.[] | strings | select(test("(twice|thrice)"))' ''
for ((number = 0; number < 20; number += 1)); do echo "query \$[?\$.key=='k$((number * 4000))']"; done > "$folder/script"
echo "| \`\$[?\$.key=='..']\`, twenty times | $(beside "$(least run_jpq)" "$jpq_base") | - | - | - |"
echo
# A filter that asks the root, over one array of 100,000 numbers.
awk 'BEGIN { printf "["; for (n = 0; n < 100000; n++) printf "%d,", n; print "7]" }' > "$lines"
head_of_table "one array of numbers: $(tell_collection "$lines")"
tell_bases
row '$[?@ == $[-1]]' '.[-1] as $last | .[] | select(. == $last)' ''
row '$[?@ < length($) && @ < count($..*)]' 'length as $length | .[] | select(. < $length)' ''
