#!/usr/bin/env bash
# Where memory is counted: the program makes a room for each run, and no crate below it makes one. That a run tells of want of memory only for refusals of its own
# room is proved. What the library says of a refused growth is named by the room alone, so that no other call makes up a refusal, but in the crates named here, whose
# calls give up without a room. The `Room` of base_file is another type, which holds bytes that are lent: it counts nothing, and its file is named for its name alone.
set -u
cd "$(dirname "$0")/.."
mapfile -t files < <(find crates/*/src -name '*.rt' | LC_ALL=C sort)
[ "${#files[@]}" -ge 100 ] || { echo "rooms: ${#files[@]} files are not all"; exit 1; }
status=0

# only WORD FILES: tells of each other file of the product that has the word
only() {
    others=$(grep -lE "$1" "${files[@]}" | grep -vE '^crates/([a-z]*_tests|timings)/|/tests\.rt$' | grep -vxF "$2")
    [ -z "$others" ] || { printf 'rooms: %s may not stand in:\n%s\n' "$1" "$others"; status=1; }
}

only '(^|[^A-Za-z_])Room::new([^A-Za-z_]|$)' 'crates/base_file/src/held.rt
crates/room/src/lib.rt
crates/segywb/src/program.rt'

only 'Alloc(Error|Failed)' 'crates/command_line/src/parsing.rt
crates/edit_pieces/src/heads.rt
crates/journal_save/src/open_fault.rt
crates/room/src/heap.rt
crates/safe_save/src/beside.rt
crates/script_run/src/session_repairs.rt'

[ "$status" != 0 ] || echo 'rooms: the program alone makes them, and only saves, journals and the command line name a refused growth beside them'
exit "$status"
