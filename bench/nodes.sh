#!/usr/bin/env bash
# Asks for rows of nodes and for the lines of a list in orders of about 40 MB (or as many as the first argument says), and for a
# tally of a log of about 50 MB (the second), with jpgrep and beside it with jq, sqlite3, miller and grep, where they are installed
# (Debian has them). A cell tells how many characters the command has and its seconds by the clock, the least of as many runs as
# RUNS says (three). Then it tells what tallies take beside the printing of each value, the least of three times as many runs, and
# of how much memory. It says its machine and makes no claim. Build the program first: (cd crates/jpgrep && rt run -- --help)
set -euo pipefail
cd "$(dirname "${BASH_SOURCE[0]}")/.."
JPQ=${JPGREP:-$PWD/crates/jpgrep/out/jpgrep}
. bench/timing.sh
mkdir "$folder/bin"
ln -s "$(realpath "$program")" "$folder/bin/jpgrep"
PATH=$folder/bin:$PATH
bench/load/lines.sh orders $((${1:-40} * 1000000)) > "$folder/orders.jsonl"
bench/load/lines.sh log $((${2:-50} * 1000000)) > "$folder/log.jsonl"
cd "$folder"
# Of the keys 3,000, spread over the orders, as the lines of a list.
sed 's/^{"key":\("[^"]*"\).*/\1/' orders.jsonl | awk -v all="$(wc -l < orders.jsonl)" 'int(NR * 3000 / all) > taken { taken++; print }' > ids.jsonl
table() { echo "-cmd '.mode ascii' -cmd '.separator \"\\037\" \"\\n\"' -cmd 'create table t(j)' -cmd '.import $1 t'"; }
listed="-cmd 'create table ids(i)' -cmd '.import ids.jsonl ids'"
csv="-cmd '.mode csv' :memory:"

# A cell: the characters of a command, and its seconds. What it prints goes through a pipe, as grep stops early where nothing
# takes it.
cell() {
    local program=${1%% *}
    if [ -z "$1" ] || ! has "$program"; then echo -; else echo "${#1}, $(least bash -o pipefail -c "$1 | cat")"; fi
}
# A row: the question, and the commands of jpgrep, jq, sqlite3, miller and grep.
row() {
    printf '| %s | %s | %s | %s | %s | %s |\n' "$1" "$(cell "jpgrep $2")" "$(cell "$3")" "$(cell "$4")" "$(cell "$5")" "$(cell "$6")"
}
tell_machine
echo "| orders: $(tell_collection orders.jsonl), a list of $(wc -l < ids.jsonl) keys; log: $(tell_collection log.jsonl) | jpgrep | jq | sqlite3 | miller | grep |"
echo '|---|---|---|---|---|---|'
row 'a row for each item, with the key of its order' "--csv --each '\$.items[*]' -e '\$.key' -e @.name -e @.price orders.jsonl" \
    "jq -r '.key as \$key | .items[] | [\$key, .name, .price] | @csv' orders.jsonl" \
    "sqlite3 $(table orders.jsonl) $csv \"select j->>'$.key', i.value->>'$.name', i.value->>'$.price' from t, json_each(j->'$.items') i\"" \
    "mlr --ijsonl --ocsv put -q 'for (i in \$items) { emit1 {\"key\": \$key, \"name\": i[\"name\"], \"price\": i[\"price\"]} }' orders.jsonl" ''
row 'the items above a price' "--each '\$.items[*]' -w '@.price > 90' orders.jsonl" \
    "jq -c '.items[] | select(.price > 90)' orders.jsonl" \
    "sqlite3 $(table orders.jsonl) $csv \"select i.value from t, json_each(j->'$.items') i where i.value->>'$.price' > 90\"" \
    "mlr --jsonl put -q 'for (i in \$items) { if (i[\"price\"] > 90) { emit i } }' orders.jsonl" ''
row 'the orders of a list' "--in '\$.key' ids.jsonl orders.jsonl" \
    "jq -nc --slurpfile ids ids.jsonl '(\$ids | map({(.): 1}) | add) as \$set | inputs | select(\$set[.key])' orders.jsonl" \
    "sqlite3 $(table orders.jsonl) $listed $csv \"select j from t where j->'$.key' in (select i from ids)\"" \
    "mlr --jsonl join -f <(sed 's/.*/{\"key\":&}/' ids.jsonl) -j key orders.jsonl" 'grep -F -f ids.jsonl orders.jsonl'
row 'how many lines of the log have each status, the most frequent first' "--tally '\$.request.status' log.jsonl" \
    "jq .request.status log.jsonl | sort | uniq -c | sort -rn" \
    "sqlite3 $(table log.jsonl) $csv \"select count(*), j->'$.request.status' from t group by 2 order by 1 desc\"" \
    "mlr --ijsonl --otsv flatten then count-distinct -f request.status then sort -nr count log.jsonl" ''
row 'each path and kind of value, with how often it comes' "--paths orders.jsonl" \
    "jq -r 'path(..) as \$p | (\$p | map(if type == \"number\" then \"*\" else . end) | tojson) + (getpath(\$p) | type)' orders.jsonl | sort | uniq -c" '' '' ''
RUNS=$((${RUNS:-3} * 3))
# The memory at the peak in MB.
peak_of() { /usr/bin/time -f '%M' "$@" 2>&1 > /dev/null | tail -1 | awk '{ printf "%.1f", $1 / 1000 }'; }
tally_row() { printf '| %s | %s | %s |\n' "$1" "$(least "$program" "${@:2}")" "$(peak_of "$program" "${@:2}")"; }
awk 'BEGIN { for (n = 0; n < 1000000; n++) print "{\"id\":\"u" (n * 7919) % 1000000 "\"}" }' > ids-of-lines.jsonl
echo
echo '| jpgrep | seconds | memory at the peak, MB |'
echo '|---|---|---|'
tally_row 'log: each status, `-o`' -o '$.request.status' log.jsonl
tally_row 'log: how many have each status, `--tally`' --tally '$.request.status' log.jsonl
tally_row "$(tell_collection ids-of-lines.jsonl): each id, \`-o\`" -o '$.id' ids-of-lines.jsonl
tally_row "the same: how many have each id, all $(sort -u ids-of-lines.jsonl | wc -l) of them, \`--tally\`" --tally '$.id' ids-of-lines.jsonl
