#!/usr/bin/env bash
# Writes at least so many bytes of lines of one kind: log, crlf (log lines that end as on Windows), posts, numbers, wide, array,
# escapes, tiny, orders or records (the entries of Debian's iso-codes, with jq; it ends with status 3 where they are not there).
set -euo pipefail
kind=$1 bytes=$2
case $kind in
log) exec "$(dirname "${BASH_SOURCE[0]}")/../log-lines.sh" $((bytes / 150 + 1)) ;;
crlf) "${BASH_SOURCE[0]}" log "$bytes" | sed 's/$/\r/' ;;
tiny) awk -v bytes="$bytes" 'BEGIN { for (n = 0; n < bytes; n += 8) print "{\"a\":1}" }' ;;
wide) awk -v bytes="$bytes" 'BEGIN { for (line = 1; written < bytes; line++) {
    out = "{\"field0\":0"
    for (n = 1; n < 4000; n++) out = out ",\"field" n "\":" (n * line) % 100000
    print out "}"; written += length(out) + 2 } }' ;;
array) awk -v bytes="$bytes" 'BEGIN { printf "[0"
    for (n = 1; written < bytes; n++) { out = ",{\"id\":" n ",\"ok\":" (n % 2 ? "true" : "null") "}"; printf "%s", out; written += length(out) }
    print "]" }' ;;
numbers) awk -v bytes="$bytes" 'BEGIN { for (line = 1; written < bytes; line++) {
    out = "[[" line ",-" line % 97 "." line % 1000003 "],[" line * 7919 ".25,0.0" line ",1e" line % 20 "]"
    for (n = 1; n < 20; n++) out = out ",[" (line * n) % 180 "." line * 31 + n "123,-" (line * n) % 90 "." line * 17 + n "456]"
    print out "]"; written += length(out) + 2 } }' ;;
posts) awk -v bytes="$bytes" 'BEGIN { text = "Größe und Länge — une journée à la mer, déjà vu; 日本語の文章がここにある。 and some plain words behind them"
    for (line = 1; written < bytes; line++) {
    out = "{\"id\":" line ",\"text\":\"" text " " line "\",\"user\":{\"name\":\"user" line % 5000 "\",\"verified\":" (line % 3 ? "false" : "true") ",\"about\":\"" text "\"},\"tags\":[\"one\",\"two\",\"three\"],\"places\":[[" line % 90 ".5," line % 180 ".25],[0,1]],\"reply\":null,\"likes\":" line * 3 ",\"more\":[{\"text\":\"" text "\",\"by\":\"someone\"},{\"text\":\"" text "\",\"by\":\"someone else\"}]}"
    print out; written += length(out) + 1 } }' ;;
escapes) awk -v bytes="$bytes" 'BEGIN { for (line = 1; written < bytes; line++) {
    out = "{\"path\":\"C:\\\\dir\\\\" line "\",\"text\":\"a\\tline\\nof \\\"words\\\" \\u00e9 \\ud834\\udd1e and\\/or \\\\ signs\",\"list\":[\"\\n\",\"\\r\\n\",\"\\u0041\\u0042\"]}"
    print out; written += length(out) + 1 } }' ;;
orders) awk -v bytes="$bytes" 'BEGIN {
    split("open paid sent late", status); split("Oslo Rome Graz Bern Lodz", city)
    for (n = 0; written < bytes; n++) {
        out = sprintf("{\"key\":\"k%d\",\"status\":\"%s\",\"customer\":{\"name\":\"customer %d\",\"city\":\"%s\"},\"total\":%d.%02d,", n, status[n % 4 + 1], n % 1000, city[n % 5 + 1], n % 700, n % 100)
        out = out sprintf("\"currency\":\"EUR\",\"paid\":%s,\"created\":\"2026-%02d-%02dT10:%02d:00Z\",\"weight\":%d,\"note\":\"order number %d, please ring twice\",\"items\":[", n % 3 ? "true" : "false", n % 12 + 1, n % 28 + 1, n % 60, n % 90, n)
        for (m = 0; m < 6; m++) out = out sprintf("%s{\"name\":\"pen %d\",\"price\":%d.5,\"count\":%d}", (m ? "," : ""), m, (n + m * 17) % 100, m + 1)
        print out "]}"; written += length(out) + 3 } }' ;;
records)
    codes=(/usr/share/iso-codes/json/iso_*.json)
    if [ ! -e "${codes[0]}" ] || ! command -v jq > /dev/null; then exit 3; fi
    jq -c '.[][]' "${codes[@]}" | awk -v bytes="$bytes" '{ line[NR] = $0 } END {
        for (n = 0; written < bytes; n++) { out = line[n % NR + 1]; print out; written += length(out) + 1 } }' ;;
*) echo "no such kind: $kind" >&2; exit 2 ;;
esac
