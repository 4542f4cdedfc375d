#!/usr/bin/env bash
# The gate: `rt ci`, which proves all and builds the program, and the end-to-end tests, which begin at once beside it on the shipped program: at the
# end that has to be the built one, byte for byte. What they print comes behind what `rt ci` does, and last, where something failed, the lines that say so.
# Where a crate was not proved, some lines in front of the first one that says so stand there too, and how much disk and memory are left: a full disk fails a proof.
# usage: tests/gate.sh BUILT SHIPPED
# With -m each job has a process group, which is ended whole, and takes interrupts.
set -um
here=$(cd "$(dirname "$0")" && pwd)
built=$1
shipped=$2
tests=
proofs=
work=$(mktemp -d)
trap 'rm -rf "$work"' EXIT
trap 'kill -- ${tests:+-$tests} ${proofs:+-$proofs} 2> /dev/null; exit 1' HUP INT TERM

{ cp "$shipped" "$work/segywb" && bash "$here/all.sh" "$work/segywb"; } > "$work/told" 2>&1 &
tests=$!

# ends STATUS: ends the gate, once the tests are at their end too
ends() {
    local status=$1
    wait "$tests" || status=1
    cat "$work/told"
    if [ "$status" != 0 ]; then
        echo '== what failed:'
        grep -hE -B 6 'NOT PROVED' "$work/proved" | cut -c 1-300 | head -n 8
        grep -hE 'NOT PROVED|NOT REFUSED|NOT TRIED|BAD EDIT|FAILED|^ERROR |(^|[^0-9])[1-9][0-9]* failed|do not give|disk is full|was killed' "$work/proved" "$work/told" | cut -c 1-300 | tail -n 12
        echo "left: $(df -Pm . | awk 'END { print $4 }') MB of disk, $(awk '/^MemAvailable:/ { print int($2 / 1000) }' /proc/meminfo) MB of memory"
    fi
    exit "$status"
}

RT_JOBS=${RT_JOBS:-$("$here/../tools/lanes")} rt ci > >(tee "$work/proved") 2>&1 &
proofs=$!
wait "$proofs" || ends 1
proofs=
[ -x "$built" ] || "$here/../tools/build" || ends 1
if ! cmp "$built" "$shipped"; then
    echo 'The sources do not give the shipped program: see make dist.' | tee -a "$work/proved"
    ends 1
fi
ends 0
