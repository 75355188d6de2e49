#!/usr/bin/env bash
# Rows of text over the built program: feeds and script lines in, replies and statuses out (tests/logs.txt, tests/scripts.txt). Names each
# case that is answered otherwise, and ends with 1 then. LIGHTNING names another program to try.
set -u
root=$(cd "$(dirname "$0")/.." && pwd)
program=${LIGHTNING:-$(find "$root/crates/lightning_cli/out" -maxdepth 1 -type f -name lightning_cli -perm -u+x 2>/dev/null | head -n 1)}
[ -n "$program" ] || { echo "rows: the program is not built here"; exit 1; }
python=$(command -v python3) || { echo "rows: no python3: the rows are not tried"; exit 1; }
exec "$python" "$root/tests/rows.py" "$program"
