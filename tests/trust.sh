#!/bin/sh
# tests/trust.sh: whether docs/TRUST.md is true of the files: each statement that its first table names stands on the page that it says, and each page to
# believe has as many lines as it says, and all of them together as many as it says. The last line counts; the exit status is 0 if all agree.
set -eu
cd "$(dirname "$0")/.."
trust=docs/TRUST.md
looked=0 failed=0
wrong() { echo "FAILED $*"; failed=$((failed + 1)); }

# | claim | `name`, `name` | `page` |
statements=$(awk -F'|' '$4 ~ /^ `[a-z_]*\/proofs\/[A-Za-z]*` $/ {
    n = split($3, names, ","); gsub(/[` ]/, "", $4)
    for (i = 1; i <= n; i++) { gsub(/[` ]/, "", names[i]); print names[i] ":" $4 } }' "$trust")
for each in $statements; do
    looked=$((looked + 1))
    grep -q "^ *pub ${each%%:*} :" "crates/${each#*:}.antt" || wrong "$each"
done

# | `page` | lines | what it says |
pages=$(awk -F'|' '$2 ~ /^ `[a-z_]*\/specs\/[A-Za-z]*` $/ { gsub(/[` ]/, "", $2); gsub(/ /, "", $3); print $2 ":" $3 }' "$trust")
count=0 total=0
for each in $pages; do
    looked=$((looked + 1)) count=$((count + 1))
    lines=$(($(wc -l <"crates/${each%%:*}.antt")))
    total=$((total + lines))
    [ "$lines" -eq "${each#*:}" ] || wrong "$each, which has $lines lines"
done
looked=$((looked + 1))
said=$(echo "$total" | sed 's/\([0-9][0-9][0-9]\)$/,\1/')
grep -q "$count pages, $said lines" "$trust" || wrong "$count pages, $said lines"

echo "$looked places, $failed failed"
[ "$failed" -eq 0 ]
