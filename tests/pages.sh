#!/bin/sh
# tests/pages.sh [PAGE..]: runs the commands that the pages show, and compares what each prints with what the page says that it prints. A command
# stands in an indented block after `$ `; what it prints on standard output follows, up to the next `$ ` or the block's end. An empty line belongs to
# it where the block goes on after it. The last line counts; the exit status is 0 if all agree.
set -eu
cd "$(dirname "$0")/.."
[ $# -gt 0 ] || set -- docs/FORMATS.md docs/TRUST.md README.md examples/README.md
scratch=$(mktemp -d)
trap 'rm -rf "$scratch"' EXIT

# What the proving says, if a program is still to be made, is not the program's. Without a command the status of rack is 2, and
# that of reduce, which has no listing, 1.
./run rack </dev/null >"$scratch/made" 2>&1 || [ $? -eq 2 ] || { cat "$scratch/made"; exit 1; }
./run reduce </dev/null >"$scratch/made" 2>&1 || [ $? -eq 1 ] || { cat "$scratch/made"; exit 1; }

# Three files for each command, in the order of the pages: where it stands, itself, and what it has to print.
awk -v scratch="$scratch" '
    FNR == 1 { open = 0 }
    /^    \$ / {
        if (open) close(at ".wanted")
        n++
        at = sprintf("%s/%04d", scratch, n)
        print FILENAME ":" FNR > (at ".place")
        print substr($0, 7) > (at ".command")
        printf "" > (at ".wanted")
        close(at ".place"); close(at ".command")
        open = 1; empty = 0
        next
    }
    open && /^    / {
        for (; empty > 0; empty--) print "" > (at ".wanted")
        print substr($0, 5) > (at ".wanted")
        next
    }
    open && /^$/ { empty++; next }
    open { open = 0; close(at ".wanted") }' "$@"

ran=0 failed=0
for command in "$scratch"/*.command; do
    [ -f "$command" ] || break
    at=${command%.command}
    if grep -q python3 "$command" && ! command -v python3 >/dev/null; then
        echo "not run, since there is no python3: $(cat "$at.place")"
        continue
    fi
    ran=$((ran + 1))
    sh "$command" </dev/null >"$at.printed" 2>"$at.said" || :
    if ! cmp -s "$at.printed" "$at.wanted"; then
        failed=$((failed + 1))
        printf 'FAILED %s: %s\n' "$(cat "$at.place")" "$(cat "$command")"
        diff "$at.wanted" "$at.printed" || :
        cat "$at.said"
    fi
done
echo "$ran commands, $failed failed"
[ "$failed" -eq 0 ] && [ "$ran" -gt 0 ]
