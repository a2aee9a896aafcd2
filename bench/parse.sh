#!/usr/bin/env bash
# Times the reading and the check of long queries, most of them near the 65,535 bytes or the 512 brackets that a query has at
# most; of each the shortest of five times. It says its machine and makes no claim.
set -euo pipefail
cd "$(dirname "${BASH_SOURCE[0]}")/.."
. bench/single.sh
run_single parse "jp_model jp_query jp_types" "simdutf8"
