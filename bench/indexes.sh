#!/usr/bin/env bash
# Times indexes by value: 10,000, 100,000 and 1,000,000 lines are put into one, as many look-ups by `==` are made, and 100,000
# lines are edited. It says its machine and makes no claim.
set -euo pipefail
cd "$(dirname "${BASH_SOURCE[0]}")/.."
. bench/single.sh
run_single indexes "jp_decimal jp_eval jp_index jp_iregexp jp_lanes jp_masks jp_model jp_query jp_strings jp_tape jp_values" "simdutf8"
