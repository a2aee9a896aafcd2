#!/usr/bin/env bash
# Times an index and 1,000 look-ups by it over about 50 MB of lines, the loading too, beside `sqlite3` with an index on the
# expression and `jq`, which has no index, in one pass over all lines. It says its machine and makes no claim. Build the program first:
# (cd crates/jpq && rt run -- /dev/null < /dev/null)
set -euo pipefail
cd "$(dirname "${BASH_SOURCE[0]}")/.."
. bench/timing.sh
count=85800
lines=$folder/lines.jsonl
awk -v lines="$count" 'BEGIN {
    for (i = 0; i < 9; i++) items = items (i ? "," : "") "{\"name\":\"item\",\"price\":12.5,\"tags\":[\"a\",\"b\"]}"
    for (n = 0; n < lines; n++)
        printf "{\"key\":\"k%d\",\"user\":{\"name\":\"user %d\",\"age\":%d},\"items\":[%s],\"note\":\"order number %d\"}\n", n, n % 1000, n % 90, items, n }' > "$lines"
keys() { awk -v lines="$count" -v form="$1" 'BEGIN { for (n = 0; n < 1000; n++) printf form, (n * 7919) % lines }'; }
row() { printf '| %s | %s |\n' "$1" "$(least "${@:2}")"; }
tell_machine
printf '| %s | seconds |\n|---|---|\n' "$(tell_collection "$lines")"
: > "$folder/load"
{ echo 'index $.key'; keys "query \$[?\$.key=='k%d']\n"; } > "$folder/script"
{ echo 'index $.key'; keys "explain \$[?\$.key=='k%d']\n"; } > "$folder/explain"
row 'jpq: load' "$program" "$lines" --script "$folder/load"
row 'jpq: load, index, 1,000 queries' "$program" "$lines" --script "$folder/script"
row 'jpq: load, index, 1,000 times `explain`' "$program" "$lines" --script "$folder/explain"
if has sqlite3; then
    {
        echo 'create table t(line text);'
        printf '.mode list\n.separator |\n.import %s t\n' "$lines"
        echo "create index k on t(json_extract(line, '\$.key'));"
        keys "select value from t, json_each(t.line) where json_extract(line, '\$.key') = 'k%d';\n"
    } > "$folder/sql"
    row 'sqlite3: load, index, 1,000 queries' sqlite3 :memory: ".read $folder/sql"
fi
if has jq; then
    { echo '{'; keys '"k%d":1,' | sed 's/,$//'; echo '} as $keys | select($keys[.key]) | .[]'; } > "$folder/filter"
    row 'jq: 1,000 look-ups in one pass' jq -c -f "$folder/filter" "$lines"
fi
