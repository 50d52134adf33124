#!/bin/sh
# tests/examples.sh: runs every job under examples/ through ./run rack, and compares what is printed with its file expected, what is said
# on standard error with its file said, and the exit status. A job's words for rack are in its file words, or else its folder's name. What
# is simplified at the usual limit goes through ./run reduce too. The last line counts; the exit status is 0 if all agree.
set -eu
cd "$(dirname "$0")/.."
scratch=$(mktemp -d)
trap 'rm -rf "$scratch"' EXIT

# What the proving says, if a program is still to be made, is not the program's. Without a command the status of rack is 2, and
# that of reduce, which has no listing, 1.
./run rack </dev/null >"$scratch/made" 2>&1 || [ $? -eq 2 ] || { cat "$scratch/made"; exit 1; }
./run reduce </dev/null >"$scratch/made" 2>&1 || [ $? -eq 1 ] || { cat "$scratch/made"; exit 1; }

# The exit status that goes with what a job has to print.
status_of() {
    case $(cat "$1") in
        incomplete* | need* | refused*) echo 1 ;;
        *) echo 0 ;;
    esac
}

words_of() {
    if [ -f "$1/words" ]; then cat "$1/words"; else basename "$(dirname "$1")"; fi
}

# Runs a job by a program and its words, and says what differs: try JOB SAID PROGRAM [WORDS], SAID a file.
try() {
    job=$1 said=$2 wanted=$(status_of "$1/expected") status=0
    shift 2
    ./run "$@" <"$job/job" >"$scratch/printed" 2>"$scratch/said" || status=$?
    cmp "$scratch/printed" "$job/expected" || return 1
    cmp "$scratch/said" "$said" || return 1
    [ "$status" -eq "$wanted" ] || { echo "$job: exit status $status, not $wanted"; return 1; }
}

# reduce says nothing on standard error.
try_all() {
    words=$(words_of "$1")
    try "$1" "$1/said" rack $words || return 1
    [ "$words" != simplify ] || try "$1" /dev/null reduce
}

ran=0 failed=0
for each in examples/*/*/job; do
    ran=$((ran + 1))
    try_all "$(dirname "$each")" || { echo "FAILED $(dirname "$each")"; failed=$((failed + 1)); }
done
echo "$ran examples, $failed failed"
[ "$failed" -eq 0 ] && [ -f "$each" ]
