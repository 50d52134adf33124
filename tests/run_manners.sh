#!/bin/sh
# tests/run_manners.sh: tries ./run itself: from where it is called, what it says and with which status it ends where something is
# amiss, and that two do not prove at once. What has to do with proving is tried on a small repository, with a copy of run, whose
# program copy prints its input. The last line counts; the exit status is 0 if nothing failed.
set -eu
cd "$(dirname "$0")/.."
root=$(pwd -P)
scratch=$(mktemp -d)
trap 'chmod -R u+w "$scratch"; rm -rf "$scratch"' EXIT
chmod 755 "$scratch"
passed=0 failed=0 left=0

# holds WHAT STATUS LINES WORDS: the last call, by its status $got, its output and what it said: so many lines (or -, any number), which
# have these words. It has to print the file $wanted.
holds() {
    wrong=''
    cmp -s "$scratch/out" "$wanted" || wrong="another output than $wanted"
    [ "$got" -eq "$2" ] || wrong="status $got, not $2"
    [ "$3" = - ] || [ "$(wc -l <"$scratch/said")" -eq "$3" ] || wrong="not $3 lines on standard error"
    case $(cat "$scratch/said") in *"$4"*) ;; *) wrong="no words '$4' on standard error" ;; esac
    if [ -z "$wrong" ]; then
        passed=$((passed + 1))
    else
        failed=$((failed + 1))
        printf 'FAILED %s: %s. It said:\n' "$1" "$wrong"
        cat "$scratch/said"
    fi
}

# try WHAT STATUS LINES WORDS COMMAND..: calls the command, and holds it to the others.
try() {
    what=$1 status=$2 lines=$3 words=$4 got=0
    shift 4
    "$@" >"$scratch/out" 2>"$scratch/said" || got=$?
    holds "$what" "$status" "$lines" "$words"
}

nothing=/dev/null
unwritten='run: the answer could not be written.'
job=$root/examples/evaluate/half_difference/job
value=$root/examples/evaluate/half_difference/expected

# The repository's own programs; if they are still to be made, that is not what is tried.
for program in rack reduce; do ./run $program </dev/null >"$scratch/made" 2>&1 || [ $? -le 2 ] || { cat "$scratch/made"; exit 1; }; done

mkdir "$scratch/a folder" "$scratch/a folder/links"
ln -s "$root/run" "$scratch/a folder/first"
ln -s ../first "$scratch/a folder/links/second"
wanted=$value
try 'a link' 0 0 '' "$scratch/a folder/first" rack evaluate <"$job"
cd "$scratch/a folder"
try 'a link to a link, from elsewhere' 0 0 '' links/second rack evaluate <"$job"
cd /
try 'from elsewhere' 0 0 '' "$root/run" rack evaluate <"$job"
cd "$root"

wanted=$nothing
try 'no program' 2 - 'use: ./run PROGRAM' ./run
try 'an unknown program' 2 - 'use: ./run PROGRAM' ./run crates
try 'a path for a program' 2 - 'use: ./run PROGRAM' ./run ../crates/rack
try 'an unknown command word' 2 - 'rack' ./run rack evaluated <"$job"
try 'a closed input' 2 1 'could not be read' sh -c './run rack evaluate <&-'
try 'an input that cannot be read' 2 1 'could not be read' sh -c './run reduce <crates'
try 'a full disk' 3 1 "$unwritten" sh -c './run rack evaluate <"$1" >/dev/full' sh "$job"
try 'a closed output' 3 1 "$unwritten" sh -c './run rack evaluate <"$1" >&-' sh "$job"
try 'a full disk, and no answer' 3 - "$unwritten" sh -c './run reduce </dev/null >/dev/full'
try 'a full disk, and nowhere to say it' 3 0 '' sh -c './run rack evaluate <"$1" >/dev/full 2>&-' sh "$job"
try 'an unknown program, and nowhere to say it' 2 0 '' sh -c './run crates 2>/dev/full'
try 'a reader that leaves' 0 0 '' sh -c './run rack evaluate <"$1" | true' sh "$job"
try 'a full disk for the list of programs' 3 1 "$unwritten" sh -c './run --help >/dev/full'
./run --help >"$scratch/list"
wanted=$scratch/list
try 'the list of programs' 0 0 '' ./run --help
wanted=$nothing
mkdir "$scratch/tools"
for tool in sh dirname readlink; do ln -s "$(command -v $tool)" "$scratch/tools"; done
try 'no rt' 2 1 'run: there is no rt on the path' env PATH="$scratch/tools" "$root/run" rack evaluate <"$job"
: >"$scratch/tools/rt"
chmod +x "$scratch/tools/rt"
try 'another rt' 2 1 "is not a kit of Rattle's" env PATH="$scratch/tools" "$root/run" rack evaluate <"$job"
try 'the program itself, a full disk' 0 1 'The answer could not be written.' sh -c 'crates/reduce/out/reduce </dev/null >/dev/full'

# The small repository: copy stands on small, and not on aside.
small=$scratch/small
mkdir "$small"
cp run "$small"
cd "$small"
mkdir -p crates/copy/src crates/small/src crates/aside/src
printf '%s\n' 'copy: small' 'small:' 'aside:' >crates.txt
echo 'pub fn seven() -> u64 { 7 }' | tee crates/small/src/lib.rt >crates/aside/src/lib.rt
printf '%s\n' 'use std::io;' 'fn main(rt: HostRuntime) -> io::Result<()> {' 'io::copy(&mut rt.stdin(), &mut rt.stdout())?;' 'Ok(())' '}' \
    >crates/copy/src/main.rt
echo hello >"$scratch/hello"

# Calls run as a user who may not write here, if there is a way.
if [ "$(id -u)" -ne 0 ]; then
    guest() { chmod -R a-w .; "$@" || { got=$?; chmod -R u+w .; return "$got"; }; chmod -R u+w .; }
elif setpriv --reuid=65534 --regid=65534 --clear-groups sh -c '[ -x ./run ] && [ -r "$1" ]' sh "$(command -v rt)" 2>/dev/null; then
    guest() { setpriv --reuid=65534 --regid=65534 --clear-groups "$@"; }
else
    guest() { return 99; }
    left=$((left + 2))
    echo 'not run: the two of a checkout that may not be written: it is root who runs this, who may, and nobody cannot be put in the place'
fi
reads_only() { [ "$left" -gt 0 ] || try "$@"; }
reads_only 'not built, and not to be written' 2 1 'cannot be written' guest ./run copy <"$scratch/hello"

# Two at once: one proves, the other waits.
started() { while kill -0 "$1" 2>/dev/null && ! grep -qs 'built first' "$scratch/other_said"; do sleep 0.1; done; }
./run copy <"$scratch/hello" >"$scratch/other" 2>"$scratch/other_said" &
other=$!
started $other
wanted=$scratch/hello
try 'two at once: the second' 0 1 'another run is proving here' ./run copy <"$scratch/hello"
got=0
wait $other || got=$?
mv "$scratch/other" "$scratch/out"
mv "$scratch/other_said" "$scratch/said"
holds 'two at once: the first' 0 3 'run: crate 2 of 2 proved: copy ('
reads_only 'built, and not to be written' 0 0 '' guest ./run copy <"$scratch/hello"

# Printed as it is, whatever it is; the status goes by the first word.
echoes() { # echoes STATUS FORMAT: what printf makes of the format is printed
    printf "$2" >"$scratch/wanted"
    try "printed: $2" "$1" 0 '' ./run copy <"$scratch/wanted"
}
wanted=$scratch/wanted
echoes 0 'v\t0'
echoes 0 'v\t0\n\n\n'
echoes 0 '%%s\\n%%d -e\n.\n.'
echoes 0 'needless\n'
echoes 0 'incomplete[0]\n'
echoes 1 'incomplete\n'
echoes 1 'need\tsin\n'
echoes 1 'refused\t1\t0\n'
echoes 2 ''
awk 'BEGIN { for (i = 0; i < 65535; i++) printf "%c", i % 64 ? 97 + i % 26 : 10; print "" }' >"$scratch/wanted"
try 'printed: 65,536 bytes' 0 0 '' ./run copy <"$scratch/wanted"

# What is newer than the program is proved again, if the program stands on it.
wanted=$scratch/hello
sleep 1.1
touch crates/aside/src/lib.rt
try 'another crate is newer' 0 0 '' ./run copy <"$scratch/hello"
echo 'pub fn seven() -> u64 { 8 }' >crates/small/src/lib.rt
try 'a crate is newer' 0 3 'run: crate 1 of 2 proved: small (' ./run copy <"$scratch/hello"
sleep 1.1
touch crates/small/src/lib.rt
try 'a crate is newer, and the same' 0 1 'are proved and built first' ./run copy <"$scratch/hello"
try 'nothing is newer' 0 0 '' ./run copy <"$scratch/hello"
rm crates/copy/out/copy
try 'the program is gone' 0 2 'run: crate 2 of 2 proved: copy (' ./run copy <"$scratch/hello"

# A run that is killed while it proves blocks nobody.
echo 'pub fn seven() -> u64 { 9 }' >crates/small/src/lib.rt
./run copy <"$scratch/hello" >"$scratch/other" 2>"$scratch/other_said" &
other=$!
started $other
kill -9 $other
wait $other 2>"$scratch/killed" || true
try 'another run was killed' 0 - '' ./run copy <"$scratch/hello"

wanted=$nothing
echo 'pub fn seven() -> u64 { 1 - 2 }' >crates/small/src/lib.rt
try 'not proved' 2 - 'run: copy is not proved' ./run copy <"$scratch/hello"
holds 'not proved: what rt said is shown' 2 - 'rt: the library small did not build'

echo "$passed manners of run hold, $failed failed, $left not run"
[ "$failed" -eq 0 ]
