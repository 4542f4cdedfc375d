#!/usr/bin/env bash
# The end-to-end tests of a program: those of run.sh, and beside them those of the Python package, those of the desk and of the
# library, and then the recipes for many files (one after another, as each installs what it needs). What each prints stands together; the status is 1 where
# one of them fails.
# usage: tests/all.sh [PROGRAM]
set -u
here=$(cd "$(dirname "$0")" && pwd)
program=$(realpath "${1:-$here/../crates/segywb/out/segywb}") || exit 1
told=$(mktemp)
trap 'rm -f "$told"' EXIT
# one at a time may install what it needs: this installs what run.sh does, before the others begin
bash "$here/run.sh" "$program" --version > "$told" 2>&1
bash "$here/run.sh" "$program" > "$told" 2>&1 &
runs=$!
status=0
bash "$here/python.sh" "$program" || status=1
bash "$here/desk.sh" "$program" || status=1
bash "$here/library.sh" "$program" || status=1
bash "$here/recipes.sh" "$program" || status=1
wait "$runs" || status=1
cat "$told"
exit "$status"
