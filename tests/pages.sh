#!/usr/bin/env bash
# The pages stand and keep to their size; each crate of crates.txt has its page and its row in docs/map.md; each file that docs/definitions.md
# names is there; each law that a contract of the crates of laws states has its row in docs/definitions.md; each link leads to a file.
set -u
cd "$(dirname "$0")/.." || exit 1
status=0
say() { echo "$1"; status=1; }
for page in README.md docs/guide.md docs/map.md docs/definitions.md docs/formats.md docs/replies.md docs/performance.md docs/DECISIONS.md; do
  [ -s "$page" ] || say "$page is missing"
done
[ "$(wc -c < README.md)" -le 8192 ] || say "README.md has more than 8,192 bytes"
[ "$(cat docs/*.md | wc -c)" -le 122880 ] || say "docs/*.md have more than 120 kB in all"
for crate in $(sed -n 's/^\([a-z_]*\):.*/\1/p' crates.txt); do
  [ -s "crates/$crate/README.md" ] || say "crates/$crate/README.md is missing"
  grep -q "^| \`$crate\`" docs/map.md || say "docs/map.md has no row for $crate"
done
for file in $(grep -oE '`[A-Z][A-Za-z]*\.antt`' docs/definitions.md | tr -d '`' | sort -u); do
  compgen -G "crates/*/specs/$file" > /dev/null || compgen -G "crates/*/proofs/$file" > /dev/null || say "docs/definitions.md names $file, which is not there"
done
for crate in lt_codecs lt_store_codecs lt_theorems lt_version_laws lt_steps lt_image_laws; do
  for law in $(sed -n 's/^ *ensures { \([A-Za-z]*\).*/\1/p' "crates/$crate/src/lib.rt"); do
    grep -qE "^\|.*\`$law[\`.]" docs/definitions.md || say "docs/definitions.md has no row for $law of $crate"
  done
done
for page in README.md docs/*.md crates/*/README.md; do
  for link in $(grep -oE '\]\([^)#]+' "$page" | cut -c3- | grep -v '://'); do
    [ -e "$(dirname "$page")/$link" ] || say "$page links to $link, which is not there"
  done
done
exit $status
