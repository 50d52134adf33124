#!/bin/sh
# tests/layout.sh: whether each .rt and .antt file of crates/ is laid out as `rt fmt` lays it out, tried on a copy, since that writes where it
# is not. The gate refuses such a file too, with its crate. The last line counts; the exit status is 0 if all are.
set -eu
cd "$(dirname "$0")/.."
scratch=$(mktemp -d)
trap 'rm -rf "$scratch"' EXIT

tar -cf - --exclude out crates | tar -xf - -C "$scratch"
files=$(find "$scratch/crates" -name '*.rt' -o -name '*.antt' | wc -l)
wrong=0
for crate in "$scratch"/crates/*/; do
    (cd "$crate" && rt fmt) >"$scratch/said" 2>&1 || { cat "$scratch/said"; exit 1; }
    wrong=$((wrong + $(grep -c '^rt: formatted ' "$scratch/said" || :)))
    sed -n "s,^rt: formatted ,FAILED $(basename "$crate")/,p" "$scratch/said"
done
echo "$files files, $wrong not laid out"
[ "$wrong" -eq 0 ] && [ "$files" -gt 0 ]
