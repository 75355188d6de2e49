#!/usr/bin/env bash
# Every command of README.md and docs/guide.md, in a fresh folder, over the built program: what is printed is what the pages show.
# LIGHTNING names another program to try.
set -u
cd "$(dirname "$0")/.." || exit 1
python=$(command -v python3) || { echo "first_hour: no python3: the pages' commands are not run"; exit 1; }
exec "$python" tests/first_hour.py "${LIGHTNING:-crates/lightning_cli/out/lightning_cli}"
