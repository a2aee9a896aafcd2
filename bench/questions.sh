#!/usr/bin/env bash
# Asks ten questions of a day with logs of about 50 MB (or as many as the first argument says), with jpgrep and beside it with jq,
# sqlite3 and miller, where they are installed (Debian has them). A cell tells how many characters the command has and the seconds of the
# processor that it takes, the least of as many runs as RUNS says (three). It says its machine and makes no claim. Build the program first: (cd crates/jpgrep && rt run -- --help)
set -euo pipefail
cd "$(dirname "${BASH_SOURCE[0]}")/.."
JPQ=${JPGREP:-$PWD/crates/jpgrep/out/jpgrep}
. bench/timing.sh
mkdir "$folder/bin"
ln -s "$(realpath "$program")" "$folder/bin/jpgrep"
PATH=$folder/bin:$PATH
bench/load/lines.sh log $((${1:-50} * 1000000)) > "$folder/log.jsonl"
head -1000 "$folder/log.jsonl" > "$folder/a.jsonl"
tail -1000 "$folder/log.jsonl" > "$folder/b.jsonl"
cd "$folder"
table="-cmd '.mode ascii' -cmd '.separator \"\\037\" \"\\n\"' -cmd 'create table t(j)' -cmd '.import log.jsonl t' -cmd '.mode list' :memory:"

# A cell: the characters of a command, and its seconds.
cell() {
    local program=${1%% *}
    if [ -z "$1" ] || ! has "$program"; then echo -; else echo "${#1}, $(least_used bash -o pipefail -c "$1")"; fi
}
# A row: the question, and the commands of jpgrep, jq, sqlite3 (after the words that make the table) and miller.
row() {
    local sql=
    if [ "$3" ]; then sql="sqlite3 $table $3"; fi
    if [ "$4" = files ]; then sql=; fi
    printf '| %s | %s | %s | %s | %s |\n' "$1" "$(cell "jpgrep $2")" "$(cell "$5")" "$(cell "$sql")" "$(cell "$6")"
}
tell_machine
echo "| log: $(tell_collection log.jsonl) | jpgrep | jq | sqlite3 | miller |"
echo '|---|---|---|---|---|'
row 'the lines with a status' "-w '@.request.status == 204' log.jsonl" \
    "\"select j from t where j->>'$.request.status' = 204\"" '' \
    "jq -c 'select(.request.status == 204)' log.jsonl" \
    "mlr --jsonl filter '\$request[\"status\"] == 204' log.jsonl"
row 'their messages' "-o -w '@.request.status == 204' -e '\$.message' log.jsonl" \
    "\"select j->'$.message' from t where j->>'$.request.status' = 204\"" '' \
    "jq 'select(.request.status == 204).message' log.jsonl" \
    "mlr --jsonl filter '\$request[\"status\"] == 204' then cut -f message log.jsonl"
row 'how many lines of each status' "-o '\$.request.status' log.jsonl | sort | uniq -c" \
    "\"select j->'$.request.status', count(*) from t group by 1\"" '' \
    "jq .request.status log.jsonl | sort | uniq -c" \
    "mlr --ijsonl --oxtab flatten then count -g request.status log.jsonl"
row 'the paths of large answers' "-o -w '@.request.bytes > 2000000' -e '\$.request.path' log.jsonl" \
    "\"select j->'$.request.path' from t where j->>'$.request.bytes' > 2000000\"" '' \
    "jq '.request | select(.bytes > 2000000).path' log.jsonl" \
    "mlr --jsonl filter '\$request[\"bytes\"] > 2000000' then flatten then cut -f request.path log.jsonl"
row 'how many lines have a path' "-c '\$.request.path' log.jsonl" \
    "\"select count(j->'$.request.path') from t\"" '' \
    "jq -n '[inputs | select(.request | has(\"path\"))] | length' log.jsonl" \
    "mlr --ijsonl --oxtab filter 'is_present(\$request[\"path\"])' then count log.jsonl"
row 'the first three lines without a level' "-v -m 3 '\$.level' log.jsonl" \
    "\"select j from t where j->'$.level' is null limit 3\"" '' \
    "jq -nc '[limit(3; inputs | select(has(\"level\") | not))][]' log.jsonl" \
    "mlr --jsonl filter 'is_absent(\$level)' then head -n 3 log.jsonl"
row 'which of two files has a path' "-l -w '@.request.path == \"/items/7\"' a.jsonl b.jsonl" '' files \
    "jq -r 'select(.request.path == \"/items/7\") | input_filename' a.jsonl b.jsonl | uniq" \
    "mlr --ijsonl --onidx filter '\$request[\"path\"] == \"/items/7\"' then put -q 'print FILENAME' a.jsonl b.jsonl"
row 'where a word is, at any depth' "-n -p '\$..[?search(@, \"log, .12345\")]' log.jsonl" \
    "\"select t.rowid, fullkey, atom from t, json_tree(j) where type = 'text' and atom like '%log, _12345%'\"" '' \
    "jq -c 'paths(strings | select(test(\"log, .12345\")))' log.jsonl" ''
row 'the sum of all bytes' "-o '\$.request.bytes' log.jsonl | awk '{ sum += \$1 } END { print sum }'" \
    "\"select sum(j->>'$.request.bytes') from t\"" '' \
    "jq -n 'reduce inputs.request.bytes as \$n (0; . + \$n)' log.jsonl" \
    "mlr --ijsonl --oxtab flatten then stats1 -a sum -f request.bytes log.jsonl"
row 'is any line no JSON?' "-c '\$' log.jsonl" "'select sum(1 - json_valid(j)) from t'" '' "jq empty log.jsonl" "mlr --jsonl nothing log.jsonl"
