#!/usr/bin/env bash
# The first run ends well, and prints the replies that stand beside the example.
set -eu
cd "$(dirname "$0")/.."
shown=$(./first-run)
missing=$(sed 's/^/    /' examples/one_stream/replies | while IFS= read -r line; do
  grep -qxF -- "$line" <<< "$shown" || echo "$line"
done)
if [ -n "$missing" ]; then
  printf 'first-run does not print:\n%s\n' "$missing"
  exit 1
fi
for pair in "script stdin" "replies stdout"; do
  set -- $pair
  cmp "examples/one_stream/$1" "crates/lightning_cli/$2" || exit 1
done
python=$(command -v python3) || { echo "no python3: the example's bytes are not compared with docs/formats.md"; exit 1; }
"$python" tests/example_bytes.py
