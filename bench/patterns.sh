#!/usr/bin/env bash
# Times the search for a literal and for a class, among others, over about a megabyte of text, and beside it the kit's `regex`
# on the same work; then the reading of patterns, and matches of short texts; of each the shortest of five times. It says its machine and makes no claim.
set -euo pipefail
cd "$(dirname "${BASH_SOURCE[0]}")/.."
. bench/single.sh
run_single patterns "jp_model jp_iregexp" "regex"
