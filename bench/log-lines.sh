#!/usr/bin/env bash
# Writes the given number of lines of a log, each a JSON object of about 150 bytes.
set -euo pipefail
awk -v lines="$1" 'BEGIN { for (n = 0; n < lines; n++)
    printf "{\"time\":\"2026-11-22T%02d:%02d:%02dZ\",\"level\":\"info\",\"request\":{\"path\":\"/items/%d\",\"status\":%d,\"bytes\":%d},\"message\":\"a line of a log, \\\"%d\\\"\"}\n", n / 3600 % 24, n / 60 % 60, n % 60, n, 200 + n % 5, n * 7, n }'
