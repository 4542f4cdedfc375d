#!/usr/bin/env bash
# End-to-end runs of the built program on files, by pytest: answers, exit status, standard error, and the saved file byte by byte
# (tests/end_to_end). Beside them the documents (documents.sh) and the pictures (pictures.sh). The Debian packages that they need are
# installed where they are missing and this is root; elsewhere the tests by pytest are left out with a word, and where CI is set that is a
# failure. What lacks something else here, as a C compiler, the right to mount or gnuplot, is left out under CI too: it is told, and of the
# tests by pytest a line in front of the last one says how many, and why. They run on all processors where pytest-xdist is installed. With
# words of pytest they run alone, as with -k 'sets and gets'.
# usage: tests/run.sh [PROGRAM] [WORD-OF-PYTEST..]
set -u
here=$(cd "$(dirname "$0")" && pwd)
named=$(realpath "${1:-$here/../crates/segywb/out/segywb}") || exit 1
[ $# = 0 ] || shift
python=${PYTHON:-/usr/bin/python3}
needed=python3-pytest
quicker=python3-pytest-xdist
own=$(mktemp -d)
work=$own/documents
trap 'rm -rf "$own"' EXIT
# Its help prints the name that it is called by, and the shipped one has another.
mkdir "$own/named" "$work"
cp "$named" "$own/named/segywb" || exit 1
program=$own/named/segywb
export PYTHONDONTWRITEBYTECODE=1
passed=0
failed=0

# tell NAME OUTCOME: counts one test
tell() {
    if [ "$2" = ok ]; then passed=$((passed + 1)); else failed=$((failed + 1)); printf 'FAILED %s: %s\n' "$1" "$2"; fi
}

missing() { for package in "$@"; do dpkg-query -W -f '${Status}' "$package" 2> /dev/null | grep -q '^install ok installed' || printf '%s ' "$package"; done; }

lacking=$(missing $needed $quicker)
if [ -n "$lacking" ] && [ "$(id -u)" = 0 ] && command -v apt-get > /dev/null; then
    { apt-get update && DEBIAN_FRONTEND=noninteractive apt-get install -y --no-install-recommends $lacking; } > /dev/null 2>&1
fi
lacking=$(missing $needed)

# tables WORD..: the tests by pytest, each worker with some of them; how many passed, failed and were left out, and why, goes to the file `counts`
tables() {
    SEGYWB=$program SEGYWB_COUNTS=$own/counts "$python" -m pytest -q -rs -p no:cacheprovider --tb=short --basetemp "$own/rooms" "$here/end_to_end" "$@"
}
on_all_processors() { ! "$python" -c 'import xdist' 2> /dev/null || printf '%s\n' -n auto; }

if [ $# != 0 ]; then
    [ -z "$lacking" ] || { printf 'run: there is no %s\n' "$lacking"; exit 1; }
    tables "$@"
    exit
fi

bash "$here/pictures.sh" "$program" > "$own/pictures.told" 2>&1 &
pictures=$!
if [ -z "$lacking" ]; then tables $(on_all_processors) > "$own/tables.told" 2>&1 & fi
cd "$work" || exit 1
. "$here/documents.sh" || tell 'documents.sh' 'did not run to its end'

if wait "$pictures"; then tell pictures ok; grep '^left out\|passed' "$own/pictures.told"; else tell pictures "$(cat "$own/pictures.told")"; fi
if [ -n "$lacking" ]; then
    printf 'left out the tests by pytest: there is no %s\n' "$lacking"
    [ -z "${CI:-}" ] || tell 'the tests by pytest' 'are left out'
else
    wait
    cat "$own/tables.told"
    if read -r ran lost skipped reasons < "$own/counts" && [ "$ran" -gt 0 ]; then
        passed=$((passed + ran)) failed=$((failed + lost))
        [ "$skipped" = 0 ] || printf 'left out %d of the tests by pytest: %s\n' "$skipped" "$reasons"
    else tell 'the tests by pytest' 'did not run to their end'; fi
fi

printf 'segywb: %d passed, %d failed\n' "$passed" "$failed"
[ "$failed" = 0 ]
