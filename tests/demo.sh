#!/usr/bin/env bash
# The first job: sets the inline number of trace 2 by its byte place, with a report before and after, and shows which bytes changed.
# usage: tests/demo.sh PROGRAM
set -eu
program=$(realpath "$1")
data=$(cd "$(dirname "$0")/../crates/segywb/data" && pwd)
work=$(mktemp -d)
trap 'rm -rf "$work"' EXIT
cd "$work"
cp "$data/survey.sgy" "$data/reports.txt" .
echo '$ cat reports.txt'
cat reports.txt
echo '$ segywb survey.sgy --script reports.txt --out edited.sgy'
"$program" survey.sgy --script reports.txt --out edited.sgy
echo '$ cmp -l survey.sgy edited.sgy      (place from 1, old and new byte in octal)'
cmp -l survey.sgy edited.sgy || true
