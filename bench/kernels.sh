#!/usr/bin/env bash
# Times the kernels on about 50 MB of log lines, and beside them a loop over bytes and the kit's `json`; then long numbers
# and strings, and lines that are meant to take long. It says its machine and makes no claim. With an argument, on that file.
set -euo pipefail
cd "$(dirname "${BASH_SOURCE[0]}")/.."
. bench/single.sh
file=${1:-$(mktemp)}
[ -s "$file" ] || bench/log-lines.sh 330000 > "$file"
echo "collection: $(stat -c %s "$file") bytes, $(wc -l < "$file") lines"
run_single kernels "jp_decimal jp_lanes jp_masks jp_model jp_strings jp_tape" "json simdutf8" "$file"
[ $# -gt 0 ] || rm -f "$file"
