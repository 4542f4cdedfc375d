#!/usr/bin/env bash
# Runs the examples of documents: each block that begins with ```sh is run as it stands, and what it prints on standard output
# and standard error must be the block ```text that follows it (no such block: nothing). Words behind `sh` and `text`:
#   sh top        the block is run at the top of the repository, else in a folder with the example files
#   sh needs=WORD the block is left out where there is no command WORD
#   sh told       with what standard error has for refused lines, which the other blocks leave out (--quiet)
#   text status=N the last command's exit status, which is else 0
# The blocks of one document share a folder, and are run one after another. `segywb` is the program that is tried, and the tools
# for pictures and pages are there, `segywb-library`, and a stand-in for `sbatch` of Slurm.
# usage: tests/transcripts.sh PROGRAM DOCUMENT.md..
set -u
here=$(cd "$(dirname "$0")" && pwd)
top=$(cd "$here/.." && pwd)
PROGRAM=$(realpath "$1")
shift
room=$(mktemp -d)
trap 'rm -rf "$room"' EXIT
mkdir "$room/bin" "$room/told_too" "$room/home"
printf '#!/bin/sh\nexec "%s" --quiet "$@"\n' "$PROGRAM" > "$room/bin/segywb"
chmod +x "$room/bin/segywb"
ln -s "$PROGRAM" "$room/told_too/segywb"
printf '#!/bin/sh\nSEGYWB="%s" PYTHONPATH="%s" PYTHONDONTWRITEBYTECODE=1 exec "%s" -m segywb.library "$@"\n' "$PROGRAM" "$top/python/src" "${PYTHON:-/usr/bin/python3}" > "$room/bin/segywb-library"
chmod +x "$room/bin/segywb-library"
ln -s "$top/tools/segywb-plot" "$top/tools/segywb-report" "$here/sbatch" "$room/bin"
export PROGRAM PATH="$room/bin:$PATH" HOME="$room/home" LC_ALL=C
unset MAKEFLAGS MAKELEVEL MFLAGS PREFIX DESTDIR SEGYWB GNUPLOT
passed=0
failed=0
left_out=0

# try DOCUMENT LINE WORDS COMMANDS STATUS ANSWERS: runs one example
try() {
    local folder=$room/work path=$PATH got word
    for word in $3; do
        case $word in
            top) folder=$top ;;
            told) path=$room/told_too:$PATH ;;
            needs=*) command -v "${word#needs=}" > /dev/null || { left_out=$((left_out + 1)); printf 'left out %s:%s: no %s\n' "$1" "$2" "${word#needs=}"; return; } ;;
            *) failed=$((failed + 1)); printf 'FAILED %s:%s: the word %s\n' "$1" "$2" "$word"; return ;;
        esac
    done
    (cd "$folder" && PATH=$path bash -c "$4") > "$room/told" 2>&1 < /dev/null
    got=$?
    printf '%s' "$6" > "$room/wanted"
    if [ "$got" = "$5" ] && cmp -s "$room/told" "$room/wanted"; then passed=$((passed + 1)); return; fi
    failed=$((failed + 1))
    printf 'FAILED %s:%s: status %s, wanted %s\n' "$1" "$2" "$got" "$5"
    printf -- '---- told\n%s\n---- wanted\n%s\n----\n' "$(head -c 2000 "$room/told")" "$(head -c 2000 "$room/wanted")"
}

# run DOCUMENT: each example of a document
run() {
    local line number=0 inside='' words='' commands='' at=0 status=0 answers='' waiting='' before=$((passed + failed + left_out)) word
    rm -rf "$room/work"
    mkdir "$room/work"
    cp "$top"/examples/*.sgy "$room/work"
    while IFS= read -r line || [ -n "$line" ]; do
        number=$((number + 1))
        case $inside in
            sh)
                if [ "$line" = '```' ]; then inside='' waiting=yes; else commands+=$line$'\n'; fi ;;
            text)
                if [ "$line" = '```' ]; then try "$1" "$at" "$words" "$commands" "$status" "$answers"; inside='' waiting=''; else answers+=$line$'\n'; fi ;;
            other) [ "$line" != '```' ] || inside='' ;;
            *)
                case $line in
                    '```sh' | '```sh '* | '```text' | '```text '*)
                        if [[ $line = '```text'* ]]; then
                            [ -n "$waiting" ] || { failed=$((failed + 1)); printf 'FAILED %s:%s: answers without commands\n' "$1" "$number"; commands=true words='' at=$number; }
                            inside=text answers='' status=0
                            for word in ${line#'```text'}; do case $word in status=*) status=${word#status=} ;; *) status="$word" ;; esac; done
                        else
                            [ -z "$waiting" ] || try "$1" "$at" "$words" "$commands" 0 ''
                            inside=sh words=${line#'```sh'} commands='' at=$number waiting=''
                        fi ;;
                    '```'*) inside=other ;;
                    '') ;;
                    *) [ -z "$waiting" ] || { try "$1" "$at" "$words" "$commands" 0 ''; waiting=''; } ;;
                esac ;;
        esac
    done < "$1"
    [ -z "$waiting" ] || try "$1" "$at" "$words" "$commands" 0 ''
    [ -z "$inside" ] || { failed=$((failed + 1)); printf 'FAILED %s: a block without an end\n' "$1"; }
    [ $((passed + failed + left_out)) -gt "$before" ] || { failed=$((failed + 1)); printf 'FAILED %s: no example in it\n' "$1"; }
}

for document in "$@"; do run "$document"; done
printf 'examples: %d passed, %d failed, %d left out\n' "$passed" "$failed" "$left_out"
[ "$failed" = 0 ]
