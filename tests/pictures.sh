#!/usr/bin/env bash
# The pictures of tools/segywb-plot and the page of tools/segywb-report. The page is tried without gnuplot; where gnuplot is
# there, the pictures are drawn, and gnuplot itself tells the colours of their pixels.
# usage: tests/pictures.sh PROGRAM
set -u
here=$(cd "$(dirname "$0")" && pwd)
tools=$here/../tools
SEGYWB=$(realpath "$1")
export SEGYWB LC_ALL=C
gnuplot=${GNUPLOT:-gnuplot}
work=$(mktemp -d)
trap 'rm -rf "$work"' EXIT
cd "$work" || exit 1
cp "$here"/../examples/*.sgy .
head -c 3600 cube.sgy > none.sgy
head -c 6000 cube.sgy > torn.sgy
passed=0
failed=0

tell() { if [ "$2" = ok ]; then passed=$((passed + 1)); else failed=$((failed + 1)); printf 'FAILED %s: %s\n' "$1" "$2"; fi; }
same() { if [ "$2" = "$3" ]; then tell "$1" ok; else tell "$1" "$2, not $3"; fi; }
# has NAME FILE TEXT, lacks NAME FILE TEXT
has() { if grep -qF -- "$3" "$2"; then tell "$1" ok; else tell "$1" "lacks $3"; fi; }
lacks() { if grep -qF -- "$3" "$2"; then tell "$1" "has $(grep -F -- "$3" "$2" | head -n 1 | cut -c 1-200)"; else tell "$1" ok; fi; }
# runs NAME STATUS ERRORS WORD..: a tool ends so; ERRORS is a text that standard error begins with
runs() {
    local name=$1 status=$2 wanted=$3 got
    shift 3
    "$tools/$1" "${@:2}" > told 2> errors < /dev/null
    got=$?
    if [ "$got" != "$status" ]; then tell "$name" "status $got, not $status: $(head -c 300 errors)"; return; fi
    if [ -s told ]; then tell "$name" "told $(head -c 100 told)"; return; fi
    case $(cat errors) in "$wanted") tell "$name" ok ;; "$wanted"*) [ -n "$wanted" ] && tell "$name" ok || tell "$name" "$(head -c 300 errors)" ;; *) tell "$name" "$(head -c 300 errors)" ;; esac
}
absent() { if [ -e "$2" ]; then tell "$1" "$2 was made"; else tell "$1" ok; fi; }

# ---- without gnuplot
export GNUPLOT=none/gnuplot
runs 'a picture without gnuplot' 5 'segywb-plot: there is no none/gnuplot: install it' segywb-plot fold cube.sgy x.png
absent 'no picture without gnuplot' x.png
runs 'a page without gnuplot' 0 'segywb-report: no pictures: there is no none/gnuplot' segywb-report cube.sgy page.html
has 'the page says why it has no pictures' page.html '<p>No pictures: there is no none/gnuplot'
lacks 'and has none' page.html '<img'
has 'what the file is' page.html '<tr><th scope="row">bytes</th><td>6600</td></tr>'
has 'what ranges it has' page.html '<tr><th scope="row">x, under the scalar</th><td>450000 to 450075</td></tr>'
has 'its totals' page.html '<tr><th scope="row">least sample</th><td>-103</td></tr>'
has 'no problems' page.html '<p>None.</p>'
same 'the lines of the textual header' "$(grep -c '^<div>C[ 1-4][0-9]' page.html)" 40

# texts of the file and of the script do not become markup
odd="a'b\"c\$(touch touched);\`touch touched\`{_^@&%}\\n<script>.sgy"
printf '%s\n' "text 3 C <script>alert(\"1\") & 'x'</script>" > script
"$SEGYWB" cube.sgy --script script --out "$odd" > /dev/null
printf '%s\n' 'text 4 </div><script>' '# <script> is a note' '' 'nonsense <script>' 'grid' $'# \377' '  ' 'get 99 inline' 'line 0 3' > '<script>.txt'
runs 'a page with a script' 1 'segywb-report: 3 lines of the script were refused' segywb-report --no-pictures "$odd" page.html '<script>.txt'
lacks 'nothing becomes a script' page.html '<script'
has 'the textual header' page.html '<div>C &lt;script&gt;alert(&quot;1&quot;) &amp; &#39;x&#39;&lt;/script&gt;</div>'
has 'the edit of the textual header' page.html '<div class="differs">&lt;/div&gt;&lt;script&gt;</div>'
has 'the name of the file' page.html "<h1>a&#39;b&quot;c\$(touch touched);\`touch touched\`{_^@&amp;%}\\n&lt;script&gt;.sgy</h1>"
has 'the name of the script' page.html '<code>&lt;script&gt;.txt</code>: 6 lines with an answer, 3 refused.'
has 'a refused line' page.html '<tr><th scope="row">4</th><td>S01 unknown word</td><td><code>nonsense &lt;script&gt;</code></td></tr>'
has 'a line that is no text' page.html '<tr><th scope="row">6</th><td>S04 not text</td><td><code># ?</code></td></tr>'
has 'a refused line behind a list' page.html '<tr><th scope="row">8</th><td>E01 no trace 99 of 12</td><td><code>get 99 inline</code></td></tr>'

# before and after
{ seq -f 'set %.0f inline 102' 5 8; printf 'text 5 C CORRECTED'; } > fix.txt
runs 'before and after' 0 '' segywb-report --no-pictures wrong_line.sgy page.html fix.txt
has 'a number that the edits change' page.html '<tr class="differs"><th scope="row">cells of the grid</th><td>8</td><td>12</td></tr>'
has 'a number that they leave' page.html '<tr><th scope="row">traces</th><td>12</td><td>12</td></tr>'
has 'problems that they take away' page.html '<td>4</td><td>traces 5 to 8: before 4</td><td>0</td><td></td><td></td>'
has 'the line as it was' page.html '<div class="differs">C 5</div>'
has 'the line as it is' page.html '<div class="differs">C CORRECTED</div>'
same 'no other line is marked' "$(grep -c '^<div class="differs">' page.html)" 2
cmp -s wrong_line.sgy "$here/../examples/wrong_line.sgy" && tell 'the file stays as it was' ok || tell 'the file stays as it was' 'it was changed'
runs 'a page of a wrong binary header' 0 '' segywb-report --no-pictures wrong_count.sgy page.html
has 'where they are' page.html '<td>12</td><td>traces 1 to 12: interval 4000 binary 2000</td><td></td></tr>'
has 'what would mend it' page.html '<td>1</td><td>count 13 traces 12</td><td><code>bin trace_count 12</code></td></tr>'
same 'problems stand first' "$(sed -n 's/^<h2>\([A-Z][a-z]*\)<.*/\1/p' page.html | head -n 1)" Problems
for p in 1 3 5 7 9 11; do echo "set $p scalar -10"; done > script
printf 'delete 12\nset 2 delay 8\nproblems\ncount\n' >> script
runs 'a page of more than five runs' 0 '' segywb-report --no-pictures cube.sgy page.html script
has 'a script with a list of problems' page.html '<code>script</code>: 10 lines with an answer, 0 refused.'
has 'names the first five' page.html '<td>5</td><td>trace 2: scalar -100 usual -10; trace 4: scalar -100 usual -10; trace 6: scalar -100 usual -10; trace 8: scalar -100 usual -10; trace 10: scalar -100 usual -10</td><td><code>set all scalar -10 where scalar != -10</code></td></tr>'
has 'another delay' page.html '<td>1</td><td>trace 2: delay 8 usual 0</td><td><code>set all delay 0 where delay != 0</code></td></tr>'
has 'that it is by a rule' page.html '<p class="quiet">A line follows a rule, as that the number of most traces is the right one: look at the traces before you run it.</p>'
printf 'set 1 delay 8\nset 2 delay 16\nset 3 delay 24\nset 4 delay 32\nset 5 delay 40\nset 6 delay 48\nset 7 delay 56\n' > script
runs 'a page of many delays' 0 '' segywb-report --no-pictures cube.sgy page.html script
has 'none of which is that of most traces' page.html 'trace 5: delay 40 usual 0; ..</td><td></td></tr>'
lacks 'and no rule' page.html 'A line follows a rule'
runs 'a page of traces out of order' 0 '' segywb-report --no-pictures order.sgy page.html
has 'no line that would lose their numbers' page.html '<td>5</td><td>traces 3 to 6: shift 1; trace 7: shift -4</td><td></td></tr>'
runs 'a page of numbers that count on' 0 '' segywb-report --no-pictures missing.sgy page.html
has 'a line for them' page.html '<td>5</td><td>traces 7 to 11: shift 1</td><td><code>renumber all sequence_file 1 1</code></td></tr>'
printf 'renumber all sequence_file 0 0\n' > script
runs 'a page of numbers that are 0' 0 '' segywb-report --no-pictures cube.sgy page.html script
has 'a line for them too' page.html '<code>renumber all sequence_file 1 1</code></td></tr>'
printf '%s\n' 'table 1 2 inline' 'find all inline 0 999' 'header 1' 'extremes all' 'lines 0' 'stats all where sample_least < 0' 'samples all 0 9' 'samples 1 2 9 9' 'count all where sample_count = 5' survey 'set 1 scalar 7' problems 'get 99 x' > script
runs 'a page with a script of lists' 1 'segywb-report: 1 line of the script was refused' segywb-report --no-pictures cube.sgy page.html script
has 'counts its lines' page.html '<code>script</code>: 13 lines with an answer, 1 refused.'

# samples that end in a refusal, as where FILE is cut off meanwhile, are a refused line; what stands behind them is told
printf '#!/bin/bash\nset -o pipefail\n"%s" "$@" | sed "s/^9 31 41 .*/refused E14 read failed/; /^1[0-2] 3[2-4] 4[2-4] /d"\n' "$SEGYWB" > failing
chmod +x failing
printf '%s\n' 'set 1 scalar 7' 'samples all 0 9' 'samples 1 2 0 9' > script
SEGYWB=$PWD/failing runs 'a page of samples that are cut off' 1 'segywb-report: 1 line of the script was refused' segywb-report --no-pictures cube.sgy page.html script
has 'counts its lines' page.html '<code>script</code>: 3 lines with an answer, 1 refused.'
has 'and tells the refusal' page.html 'E14 read failed'
printf 'patch 4 0 7 7 7 7 7\npatch 9 2 -30001\n' > script
runs 'a page of dead and loud traces' 0 '' segywb-report --no-pictures cube.sgy page.html script
has 'a line that marks the dead ones' page.html '<td>1</td><td>trace 4: value 7</td><td><code>set all trace_code 2 where sample_least = sample_greatest and sample_count &gt; 1</code></td></tr>'
has 'and none for the loud one' page.html '<td>1</td><td>trace 9: amount 30001</td><td></td></tr>'
runs 'a page of a file without traces' 0 '' segywb-report --no-pictures none.sgy page.html
has 'says so' page.html '<tr><th scope="row">fold (traces of a cell)</th><td>none</td></tr>'

# where the device fails under the question, the page says that it does not know
printf '#!/bin/bash\nset -o pipefail\n"%s" "$@" | sed "/^problem /d; /^run /d; s/^problems [0-9]*$/refused E14 read failed/"\n' "$SEGYWB" > failing
chmod +x failing
SEGYWB=$PWD/failing runs 'a page without problems' 0 '' segywb-report --no-pictures wrong_count.sgy page.html
has 'says why there are none' page.html '<p>Not told: E14 read failed</p>'

# floats: what can be told of them, and why the rest is not
runs 'a page' 0 '' segywb-report --no-pictures cube.sgy memory.html
runs 'a page of a file that stays on disk' 0 '' segywb-report --no-pictures --on-disk cube.sgy disk.html
if cmp -s memory.html disk.html; then tell 'the same page' ok; else tell 'the same page' 'it differs'; fi
runs 'a page of floats' 0 '' segywb-report --no-pictures float_line.sgy page.html fix.txt
has 'their format' page.html '<tr><th scope="row">sample format</th><td>1: 4 bytes, IBM float</td><td>1: 4 bytes, IBM float</td></tr>'
has 'their cells' page.html '<tr class="differs"><th scope="row">cells of the grid</th><td>8</td><td>12</td></tr>'
has 'their problems' page.html '<td>4</td><td>traces 5 to 8: before 4</td><td>0</td><td></td><td></td>'
printf 'patch 6 2 -12.75\npatch 9 3 0 0\n' > muted.txt
runs 'a page of wrong floats' 0 '' segywb-report --no-pictures --floats wrong_floats.sgy page.html muted.txt
has 'their least' page.html '<tr><th scope="row">least sample</th><td>-12.875</td><td>-12.875</td></tr>'
has 'their greatest' page.html '<tr class="differs"><th scope="row">greatest sample</th><td>1e20</td><td>5.5</td></tr>'
has 'their mean' page.html '<tr><th scope="row">mean of the samples</th><td>not told of floats</td><td>not told of floats</td></tr>'
has 'what is no number' page.html '<tr class="differs"><th scope="row">samples that are no numbers</th><td>2</td><td>0</td></tr>'
cp float_line.sgy gain.sgy
printf '\0\4' | dd of=gain.sgy bs=1 seek=3224 conv=notrunc status=none
runs 'a page of samples with a gain' 0 '' segywb-report --no-pictures --opaque-samples gain.sgy page.html
has 'that format' page.html '<tr><th scope="row">sample format</th><td>4: 4 bytes, fixed point with gain</td>'
for what in 'least sample' 'greatest sample' 'mean of the samples' samples; do
    has "no $what" page.html "<tr><th scope=\"row\">$what</th><td>not told: samples of this format have no value here</td>"
done
runs 'a page of samples with a gain, unasked' 3 $'gain.sgy: load refused L07 gain format\nsegywb: gain.sgy: L07' segywb-report --no-pictures gain.sgy x.html
has 'names the option' errors 'with --opaque-samples the file is read all the same'
runs 'a page under the other order' 3 'cube.sgy: load refused L08' segywb-report --no-pictures --order little cube.sgy x.html

# a file that is cut off: what stands behind its last whole trace
printf 'drop tail\n' > drop.txt
runs 'a page of a file that is cut off' 0 '' segywb-report --no-pictures --tail torn.sgy page.html
has 'its whole traces' page.html '<tr><th scope="row">traces</th><td>9</td></tr>'
has 'and what stands behind' page.html '<tr><th scope="row">bytes behind the last trace</th><td>150</td></tr>'
runs 'a page of it before and after' 0 '' segywb-report --no-pictures --tail torn.sgy page.html drop.txt
has 'which takes it away' page.html '<tr class="differs"><th scope="row">bytes behind the last trace</th><td>150</td><td>0</td></tr>'
runs 'a page of a file that is not' 0 '' segywb-report --no-pictures cube.sgy page.html
lacks 'says nothing of it' page.html 'behind the last trace'

# refusals
rm -f x.html
runs 'a refused file' 3 'torn.sgy: load refused L14 truncated trace 10' segywb-report --no-pictures torn.sgy x.html
runs 'no file' 3 'segywb: cannot open absent.sgy' segywb-report --no-pictures absent.sgy x.html
runs 'no script' 4 'segywb-report: cannot read absent.txt' segywb-report --no-pictures cube.sgy x.html absent.txt
runs 'the file as the page' 2 'segywb-report: OUT.html is FILE or SCRIPT itself' segywb-report --no-pictures cube.sgy cube.sgy
runs 'an unknown option' 2 'segywb-report: unknown option --nothing' segywb-report --nothing cube.sgy x.html
runs 'a limit' 3 'cube.sgy: load refused L02 too large' segywb-report --no-pictures --max-bytes 6599 cube.sgy x.html
absent 'a refusal makes no page' x.html
runs 'no place for the page' 4 'segywb-report: cannot write none/x.html' segywb-report --no-pictures cube.sgy none/x.html
SEGYWB=none/segywb runs 'no program' 5 'segywb-report: there is no program none/segywb' segywb-report --no-pictures cube.sgy x.html
same 'a help' "$("$tools/segywb-plot" --help | head -n 1)" 'Draws a picture of a SEG-Y file, by the answers of segywb and with gnuplot.'

# what is there and is not the tool's own stays: another file, a SEG-Y file by its name, a folder
# stays NAME ERRORS WORD..: the tool is refused with status 2, and the file `b.sgy` is as it was
cp survey.sgy b.sgy
stays() { runs "$1" 2 "$2" "${@:3}"; same "$1: nothing is lost" "$(cmp survey.sgy b.sgy 2>&1)" ''; }
stays 'two files, and no page' 'segywb-report: OUT.html is named as a SEG-Y file: b.sgy' segywb-report --no-pictures cube.sgy b.sgy
stays 'two files and a page' 'segywb-report: OUT.html is named as a SEG-Y file: b.sgy' segywb-report --no-pictures cube.sgy b.sgy x.html
stays 'two files, and no picture' 'segywb-plot: OUT.png is named as a SEG-Y file: b.sgy' segywb-plot fold cube.sgy b.sgy
stays 'two files and a picture' 'segywb-plot: one FILE and OUT.png are needed' segywb-plot fold cube.sgy b.sgy x.png
runs 'a new file that is named as a SEG-Y file' 2 'segywb-report: OUT.html is named as a SEG-Y file: new.SEGY' segywb-report --no-pictures cube.sgy new.SEGY
ln -s b.sgy link.html
stays 'a link to a file' 'segywb-report: OUT.html is there and no page: link.html' segywb-report --no-pictures cube.sgy link.html
stays 'a link to a file, and a picture' 'segywb-plot: OUT.png is there and no picture: link.html' segywb-plot histogram cube.sgy link.html
echo notes > notes.txt
runs 'another file' 2 'segywb-report: OUT.html is there and no page: notes.txt' segywb-report --no-pictures cube.sgy notes.txt
runs 'a picture over another file' 2 'segywb-plot: OUT.png is there and no picture: notes.txt' segywb-plot coordinates cube.sgy notes.txt
same 'stays as it is' "$(cat notes.txt)" notes
runs 'a picture over a page' 2 'segywb-plot: OUT.png is there and no picture: page.html' segywb-plot fold cube.sgy page.html
printf '\211PNG\r\n\032\nand more' > p.png
runs 'a page over a picture' 2 'segywb-report: OUT.html is there and no page: p.png' segywb-report --no-pictures cube.sgy p.png
runs 'a folder as the page' 2 'segywb-report: OUT.html is a folder: .' segywb-report --no-pictures cube.sgy .
absent 'no page was made' x.html
absent 'nor a file' new.SEGY

# the page is put in place whole: links, modes and what is beside it stay
rm -f x.html link.html
mkdir room
ln -s room/x.html link.html
runs 'a page through a link to nothing' 0 '' segywb-report --no-pictures cube.sgy link.html
chmod 640 room/x.html
cp room/x.html first.html
ln room/x.html hard.html
runs 'a page over a page' 0 '' segywb-report --no-pictures wrong_line.sgy link.html
same 'the link stays, and so does the mode' "$(readlink link.html) $(stat -c %a room/x.html)" 'room/x.html 640'
same 'the old page was replaced and not written' "$(cmp first.html hard.html 2>&1)" ''
same 'nothing is left beside it' "$(ls -A room)" x.html
: > empty.html
runs 'a page over an empty file' 0 '' segywb-report --no-pictures cube.sgy empty.html
has 'is a page' empty.html '<!DOCTYPE html'
runs 'a page to a device' 0 '' segywb-report --no-pictures cube.sgy /dev/null
same 'which stays one' "$(stat -c %F /dev/null)" 'character special file'
name=$(printf 'x%.0s' $(seq 250)).html
runs 'a page with a name of 255 bytes' 0 '' segywb-report --no-pictures cube.sgy "$name"
has 'is there' "$name" '</html>'

finish() { printf 'pictures: %d passed, %d failed\n' "$passed" "$failed"; [ "$failed" = 0 ]; exit; }
GNUPLOT=$gnuplot
command -v "$gnuplot" > /dev/null || { echo 'left out the pictures themselves: no gnuplot'; finish; }

# ---- with gnuplot
# drawn NAME SIZE WORD..: segywb-plot draws x.png, without a word, and it has this size
drawn() {
    local name=$1 size=$2 errors=$3
    shift 3
    rm -f x.png
    runs "$name" 0 "$errors" segywb-plot "$@" x.png
    same "$name: width and height" "$(od -An -tu1 -j16 -N8 x.png | awk '{ print 256 * (256 * $2 + $3) + $4 "x" 256 * (256 * $6 + $7) + $8 }')" "$size"
    same "$name: it is a PNG picture" "$(head -c 4 x.png | tail -c 3)" PNG
}
drawn 'a fold map' 1200x900 '' fold cube.sgy
drawn 'a file without traces' 700x500 'segywb-plot: no traces' --size 700x500 fold none.sgy
drawn 'positions of no traces' 1200x900 'segywb-plot: no traces' coordinates none.sgy
drawn 'a histogram of no traces' 1200x900 'segywb-plot: no traces' histogram none.sgy
drawn 'a sample that no trace has' 1200x900 'segywb-plot: no trace has sample 5' slice 5 cube.sgy
drawn 'a slice of floats' 1200x900 '' slice 1 float_line.sgy
drawn 'a slice without values' 1200x900 'segywb-plot: no slice: samples of format 4 have no value here' --opaque-samples slice 1 gain.sgy
drawn 'positions of floats' 1200x900 '' --floats coordinates float_line.sgy
printf 'patch 1 0 3.4e38 -3.4e38 1e-45 inf nan\npatch 2 3 nan\n' > script
for k in 0 1 2 3 4; do drawn "floats of every size, sample $k" 1200x900 '' --script script --all slice $k wrong_floats.sgy; done
drawn 'a survey of one line' 1200x900 '' slice 1 survey.sgy
printf 'delete 3\ndelete 2\n' > script
drawn 'a survey of one trace' 1200x900 '' --script script fold survey.sgy
drawn 'the position of one trace' 400x300 '' --size 400x300 --script script coordinates survey.sgy
drawn 'a file that is cut off' 1200x900 '' --tail slice 1 torn.sgy
runs 'a picture of a refused file' 3 'torn.sgy: load refused L14 truncated trace 10' segywb-plot fold torn.sgy y.png
absent 'is not made' y.png

# look [N]: every second (or nth) pixel of every second (nth) row of x.png goes to the file `table`, a line for each; rows count
# from below, and the uppermost is looked at
look() {
    printf "set table 'table'\nplot 'x.png' binary filetype=png every %s:%s with rgbimage\n" "${1:-2}" "${1:-2}" | "$gnuplot" > said 2>&1 && grep -q '^ *0 ' table
}
look || { echo 'left out the colours of pixels: this gnuplot reads no PNG'; finish; }

# at NAME COLUMN ROW RED GREEN BLUE: this pixel is to have this colour, within 8 of 255; `judge [N]` looks at x.png and tells
: > expected
at() { printf '%s\t%s %s\t%s %s %s\n' "$@" >> expected; }
judge() {
    local name outcome judged=0
    look "$@"
    while IFS=$'\t' read -r name outcome; do
        tell "$name" "$outcome"
        judged=$((judged + 1))
    done < <(awk -F '\t' '
        part == 1 { place[FNR] = $2; name[FNR] = $1; colour[FNR] = $3; asked[$2] = 1; n = FNR; next }
        { split($0, word, " "); if (word[1] " " word[2] in asked) found[word[1] " " word[2]] = word[3] " " word[4] " " word[5] }
        END {
            for (k = 1; k <= n; k++) {
                outcome = split(found[place[k]], got, " ") == 3 ? "ok" : "no such pixel"
                split(colour[k], wanted, " ")
                for (c = 1; c <= 3; c++) if (got[c] - wanted[c] > 8 || wanted[c] - got[c] > 8) outcome = "pixel " place[k] " is " found[place[k]] ", not " colour[k]
                print name[k] "\t" outcome
            }
        }' part=1 expected part=2 table)
    same 'all pixels were judged' "$judged" "$(wc -l < expected)"
    : > expected
}
# The plot of a picture of 400x300 stands on the columns 52 to 340 and the rows 36 to 258. The cube has 4 crosslines and 3 inlines.
# cell NAME INLINE CROSSLINE RED GREEN BLUE: the colour in the middle of a cell
cell() { at "$1: cell $2 $3" $((52 + (2 * ($3 - 201) + 1) * 288 / 8)) $((36 + (2 * ($2 - 101) + 1) * 222 / 6)) "$4" "$5" "$6"; }

# cells NAME INLINE CROSSLINE RED GREEN BLUE: all cells have the colour of fold 1, but this one
cells() {
    local inline crossline
    for inline in 101 102 103; do
        for crossline in 201 202 203 204; do
            if [ $inline = "$2" ] && [ $crossline = "$3" ]; then cell "$1" $inline $crossline "$4" "$5" "$6"; else cell "$1" $inline $crossline 59 82 139; fi
        done
    done
    judge
}
drawn 'a fold map of the cube with a trace twice' 400x300 '' --size 400x300 fold twice.sgy
cells 'a trace twice' 101 204 253 231 37
drawn 'a fold map of the cube without a trace' 400x300 '' --size 400x300 fold missing.sgy
cells 'a missing trace' 102 203 204 204 204
printf 'renumber 5 8 inline 102 0\ndelete 7\n' > script
drawn 'a fold map of floats after edits' 400x300 '' --size 400x300 --script script fold float_line.sgy
cells 'floats after edits' 102 203 204 204 204
printf 'map inline @9:4\nmap crossline @21:4\ncopy 9 9\n' > script
drawn 'a fold map after edits' 400x300 '' --size 400x300 --script script fold elsewhere.sgy
cells 'after edits' 103 201 253 231 37

# of floats: what is no finite number is grey as a missing trace, a dead trace is white, and the ends of the colours are told
printf 'patch 1 3 4\npatch 12 3 -4\npatch 6 3 -inf\n' > script
drawn 'a slice of floats after edits' 400x300 '' --size 400x300 --script script slice 3 wrong_floats.sgy
cell 'no number' 103 201 204 204 204
cell 'no finite number' 102 202 204 204 204
cell 'a dead trace' 101 203 255 255 255
cell 'the greatest float' 101 201 168 15 20
cell 'the least float' 103 204 10 47 156
judge

# the greatest and the least sample are red and blue, and 0 is white
printf 'patch 2 1 500\npatch 12 1 -500\npatch 5 1 0\ndelete 9\n' > script
drawn 'a slice' 400x300 '' --size 400x300 slice 1 cube.sgy --script script
cell 'the greatest sample' 101 202 168 15 20
cell 'the least sample' 103 204 10 47 156
cell 'a sample of 0' 102 201 255 255 255
cell 'no trace' 103 201 204 204 204
judge
drawn 'a clipped slice' 400x300 '' --size 400x300 slice 1 cube.sgy --clip 21
cell 'a sample above the clip' 103 204 168 15 20
judge

# three traces 1000 apart on a line: the first, the middle one, the last
drawn 'positions' 400x300 '' --size 400x300 coordinates survey.sgy
at 'the first trace' 62 147 68 1 84
at 'the second trace' 196 147 33 145 140
at 'the third trace' 328 147 232 197 0
at 'nothing between them' 110 147 255 255 255
at 'nothing beside them' 180 181 255 255 255
judge

# 11 cells have fold 1, one has fold 2
drawn 'a histogram' 400x300 '' --size 400x300 histogram twice.sgy
at 'the bar of fold 1' 148 207 59 82 139
at 'the bar of fold 2 is lower' 244 207 255 255 255
at 'the bar of fold 2' 244 45 59 82 139
at 'no bar beside them' 196 45 255 255 255
judge

# an odd name changes the label alone
drawn 'a fold map of a file with an odd name' 400x300 '' --size 400x300 fold "$odd"
cells 'an odd name' none none 0 0 0
absent 'nothing is run' touched
absent 'by either tool' "${odd%/*}/touched"

# a survey of 120 inlines with one trace each and 3 of them far away, a fold of 48, one of 500, a spike: what the axes hold, and the colours
printf 'copy 1 1\n%.0s' $(seq 117) > many.txt
{ cat many.txt; echo 'renumber 1 120 inline 1 1'; echo 'renumber 1 120 crossline 5 0'; } > line.txt
{ cat line.txt; printf 'set 7 inline 99999\nset 8 inline -5\nset 9 crossline 2000000\nset 10 x 900000\npatch 3 0 32000\n'; } > wild.txt
(
    . "$tools/segywb-plot"
    begin
    seen() { inlines='' crosslines=''; focus "$@"; echo "$inlines,$crosslines,$outside"; }
    take_script wild.txt
    ask survey.sgy answers <<< grid
    seen cell answers
    raster cell answers; fold_end answers
    ask survey.sgy answers <<< 'slice 0'
    seen row answers
    awk '$1 == "row" { print $NF < 0 ? -$NF : $NF }' "$work/answers" | ranked 98
    ask_positions survey.sgy answers places
    held '' 1 0 places
    all=1
    seen row answers
    take_script line.txt
    ask survey.sgy answers <<< grid
    all=''
    seen cell answers
    for end in 9 10 48 200 99999; do fold_colours "$end" | sed -n 's/^set cbtics \([0-9, ]*\) format.*/\1/p' | tr '\n' ';'; done
    for range in 1 7 8 47 199 1e6 3e9 0.02; do awk -v range="$range" -v step="$(tics "$range")" 'BEGIN { printf "%s", (int(range / step + 1e-9) < 8 && int(range / step + 1e-9) > 0 ? "few " : "many ") }'; done
) > told 2> errors
same 'what the axes hold' "$(cat told)" "-5:120,5:5,; 2 traces outside
1
-5:120,5:5,; 2 traces outside
3
1000:2000
,,
,,
1, 2;1, 2;10;50;20000;few few few few few few few few "
same 'no complaint' "$(cat errors)" ''
drawn 'a fold map of a wild survey' 400x300 '' --size 400x300 --script wild.txt fold survey.sgy
drawn 'the same with all of it' 400x300 '' --size 400x300 --script wild.txt --all fold survey.sgy
runs 'all of a histogram' 2 'segywb-plot: --all is not for a histogram' segywb-plot --all histogram cube.sgy y.png
printf 'set 1 scalar -16\nset 2 scalar -16\nset 3 scalar -16\n' > script
runs 'a page of fractions' 0 '' segywb-report --no-pictures survey.sgy page.html script
lacks 'coordinates are decimals' page.html '/4'

# of many traces one of each few is asked: here as if 5 were many
(
    . "$tools/segywb-plot"
    most=5
    begin
    ask cube.sgy answers <<< count
    ask_positions cube.sgy answers positions
    echo "$every" $(cut -d ' ' -f 3 "$work/positions")
) > told 2> errors
same 'positions of some traces' "$(cat told)" '3 1 4 7 10'

# the page has the pictures of both sides, in one frame
runs 'a page with pictures' 0 '' segywb-report wrong_line.sgy page.html fix.txt
grep -o 'src="data:image/png;base64,[^"]*"' page.html | sed 's/.*base64,//; s/"$//' > encoded
same 'its pictures' "$(wc -l < encoded)" 6
lacks 'nothing from elsewhere' <(sed 's/base64,[^"]*//' page.html) '://'
for k in 1 4; do
    sed -n "${k}p" encoded | base64 -d > x.png
    # three times as many pixels each way as above
    if [ $k = 1 ]; then at 'inline 102 before' 588 443 204 204 204; else at 'inline 102 after' 588 443 59 82 139; fi
    if [ $k = 1 ]; then at 'inline 101 before' 588 219 253 231 37; else at 'inline 101 after' 588 219 59 82 139; fi
    judge 4
done
finish
