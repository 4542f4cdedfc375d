#!/usr/bin/env bash
# How long lines, files and crates of Rattle are at most: so that each can be read, and be proved again in little time.
set -u
cd "$(dirname "$0")/.."
mapfile -t files < <(find crates/*/src -name '*.rt' | LC_ALL=C sort)
[ "${#files[@]}" -ge 100 ] || { echo "lines: ${#files[@]} files are not all"; exit 1; }
status=0

# wrong WHAT LINES: tells what is too long, where there is any
wrong() { [ -z "$2" ] || { printf '%s:\n%s\n' "$1" "$2"; status=1; }; }

# ---- a line of code has at most 100 columns. Lines that import words of specifications may have more, and lines that the formatter
# cannot break: attributes and ghost fields. The rows of tables with their meanings have up to 132.
wrong 'lines of more than 100 columns' "$(LC_ALL=C.UTF-8 grep -nHE '^.{101,}' "${files[@]}" |
    grep -vE '^[^:]*:[0-9]*: *(ghost use|#\[tactic\(|pub ghost [a-z_]*:|.* \} by \{ [A-Za-z]*-prop )' |
    grep -vE '^[^:]*:[0-9]*:( *\(".*\), // ).{0,125}$')"

# ---- a file has less than 800 lines, a crate at most 100 functions (`fn`, in a trait too) and 1,500 lines without comments and blank lines.
# The crates that have more, with what they have and why. They are to shrink: who makes one shorter writes the new numbers here, and
# takes its line away where it is within the limits; who cannot but make one longer writes that here too, to be seen.
larger='
trace_store    94 1622 its edits are methods of one struct with one invariant, each with its contract
bench_rules    90 1768 the words of edits, queries, conditions and answers, with their small functions, are one vocabulary of one definition
live_volume    97 2559 its edits and queries are methods of one struct with one invariant
script_words  140 1990 each word of a script is read by a function of its own
script_run     88 1869 runs and sessions, in memory, on disk and in place, share their steps
run_ending    116 1825 where a save may go, how runs, saves, repairs and recoveries end, and what standard error says of each
window_counts 127 1128 the shapes of a window (intervals of 32 and of 128 bits, rectangles with and without offsets) share one contract, of short functions
'
wrong 'files and crates that are too long' "$(awk '
    FNR == NR {
        if (NF) { functions_then[$1] = $2; lines_then[$1] = $3; if (NF < 4) print $1 ": no reason is given" }
        next
    }
    FNR == 1 { split(FILENAME, part, "/"); crate = part[2]; crates[crate] }
    FNR == 800 { print FILENAME ": 800 lines and more" }
    /^[ \t]*(\/\/|$)/ { next }
    { lines[crate]++ }
    /^[ \t]*(pub(\([a-z ]*\))? )?((const|unsafe) )*fn [A-Za-z_]/ { functions[crate]++ }
    END {
        for (crate in crates) {
            now = functions[crate] + 0 " functions, " lines[crate] + 0 " lines of code"
            within = functions[crate] <= 100 && lines[crate] <= 1500
            if (!(crate in lines_then)) { if (!within) print crate ": " now ", of at most 100 and 1500" }
            else if (within) print crate ": " now ", within the limits: take its line out of tests/lines.sh"
            else if (functions[crate] > functions_then[crate] || lines[crate] > lines_then[crate])
                print crate ": " now ", more than the " functions_then[crate] " and " lines_then[crate] " of tests/lines.sh"
            else if (functions[crate] < functions_then[crate] || lines[crate] < lines_then[crate])
                print crate ": " now ": write these in tests/lines.sh, in the place of " functions_then[crate] " and " lines_then[crate]
        }
        for (crate in lines_then) if (!(crate in crates)) print crate ": there is no such crate"
    }' <(echo "$larger") "${files[@]}" | LC_ALL=C sort)"

[ "$status" != 0 ] || echo "lines: no code of more than 100 columns, no file of 800 lines, no crate that is too long in ${#files[@]} files"
exit "$status"
