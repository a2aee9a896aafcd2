#!/usr/bin/env bash
# Times edits of a collection, as many as it has lines, the loading too, beside the same changes in `sqlite3` in one transaction: each
# line replaced, or as many appended, under an index on one member and under indexes on sixteen, and each line refused and then whole
# again, under none. Each has one thread, and the seconds are those of the processor; in brackets stands the time of jpq as a multiple
# of the other's. SIZES says how many lines (100,000 to 800,000).
# It says its machine and makes no claim. Build the program first:
# (cd crates/jpq && rt run -- /dev/null < /dev/null)
set -euo pipefail
cd "$(dirname "${BASH_SOURCE[0]}")/.."
. bench/timing.sh
sizes=${SIZES:-100000 200000 400000 800000}
lines=$folder/lines.jsonl
members=$(seq 0 14)
# The text of a line, from its number and a key: members that are indexed, whose values sort elsewhere than the lines do.
text='function text(n, key,  k, all) { all = "{\"id\":" n ",\"key\":\"" key "\""; for (k = 0; k < 15; k++) all = all ",\"k" k "\":" (n * (2 * k + 3)) % 99991; return all "}" }'
# Each line once, in an order that jumps.
jumps='function line_of(n) { return (n * 7919) % lines + 1 } function key_of(n) { return "n" (line_of(n) * 31) % lines }'
make() { awk -v lines="$1" -v quote="'" "$text $jumps BEGIN { for (n = 0; n < lines; n++) { $2 } }"; }
# An index on the first member, and on the other fifteen.
paths() { echo "$.key"; if [ "$1" = 16 ]; then for k in $members; do echo "$.k$k"; done; fi; }
in_sqlite() {
    echo 'create table t(line text);'
    printf '.mode list\n.separator |\n.import %s t\n' "$lines"
    if [ "$1" != 0 ]; then paths "$1" | awk -v quote="'" '{ print "create index i" NR " on t(json_extract(line, " quote $1 quote "));" }'; fi
    echo 'begin;'
    cat "$2"
    echo 'commit;'
}
# times NAME SIZE INDEXES COMMANDS STATEMENTS: a row of the table; the commands and statements are parts of an awk program.
times() {
    { if [ "$3" != 0 ]; then paths "$3" | sed 's/^/index /'; fi; make "$2" "$4"; } > "$folder/script"
    local ours theirs=-
    ours=$(least_used "$program" "$lines" --script "$folder/script")
    if has sqlite3; then
        make "$2" "$5" > "$folder/changes"
        in_sqlite "$3" "$folder/changes" > "$folder/sql"
        theirs=$(times_own "$ours" "$(least_used sqlite3 :memory: ".read $folder/sql")")
    fi
    echo "| $2 | $1 | $ours | $theirs |"
}
tell_machine
printf '| lines | as many edits | jpq | sqlite3 |\n|---|---|---|---|\n'
for size in $sizes; do
    make "$size" 'print text(n + 1, "k" n + 1)' > "$lines"
    for indexes in 1 16; do
        times "replaced, indexes: $indexes" "$size" "$indexes" 'print "replace " line_of(n) " " text(line_of(n), key_of(n))' \
            'print "update t set line = " quote text(line_of(n), key_of(n)) quote " where rowid = " line_of(n) ";"'
        times "appended, indexes: $indexes" "$size" "$indexes" 'print "append " text(line_of(n), key_of(n))' \
            'print "insert into t values(" quote text(line_of(n), key_of(n)) quote ");"'
    done
    times 'refused and whole again' "$size" 0 'line = line_of(n); print "replace " line " {\"id\":"; print "replace " (line * 31) % lines + 1 " " text(line, "k")' \
        'line = line_of(n); print "update t set line = " quote "{\"id\":" quote " where rowid = " line ";"; print "update t set line = " quote text(line, "k") quote " where rowid = " (line * 31) % lines + 1 ";"'
done
