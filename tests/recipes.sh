#!/usr/bin/env bash
# The recipes of docs/COOKBOOK.md for many files, as they stand there, on what libraries hold: names with blanks, quotes, line feeds and
# more, equal names in two folders, files that are refused, and more files than a command line or an array of Slurm takes. Behind
# them the README's lines for the Python package. The Debian packages that they need are installed where they are missing and this is
# root; elsewhere what needs them is left out with a word, but never where CI is set.
# usage: tests/recipes.sh [PROGRAM]
set -u
here=$(cd "$(dirname "$0")" && pwd)
program=$(realpath "${1:-$here/../dist/segywb-x86_64-linux}") || exit 1
book=${COOKBOOK:-$here/../docs/COOKBOOK.md}
examples=$(cd "$here/../examples" && pwd)
missing() { for package in parallel python3-venv; do dpkg-query -W -f '${Status}' "$package" 2> /dev/null | grep -q '^install ok installed' || printf '%s ' "$package"; done; }
lacking=$(missing)
if [ -n "$lacking" ] && [ "$(id -u)" = 0 ] && command -v apt-get > /dev/null; then
    { apt-get update && DEBIAN_FRONTEND=noninteractive apt-get install -y --no-install-recommends $lacking; } > /dev/null 2>&1
fi
work=$(mktemp -d)
trap 'rm -rf "$work"' EXIT
mkdir "$work/bin" "$work/home"
ln -s "$program" "$work/bin/segywb"
ln -s "$here/sbatch" "$work/bin"
export PATH="$work/bin:$PATH" HOME="$work/home" LC_ALL=C
passed=0
failed=0

tell() { if [ "$2" = ok ]; then passed=$((passed + 1)); else failed=$((failed + 1)); printf 'FAILED %s: %s\n' "$1" "$2"; fi; }
# same NAME GOT WANTED: two files, told by their first differences
same() { if cmp -s "$2" "$3"; then tell "$1" ok; else tell "$1" "$(diff "$2" "$3" | head -n 8)"; fi; }

# blocks HEADING FOLDER: the blocks of commands of a section of the book, each to a file: FOLDER/1, FOLDER/2, ..
blocks() {
    mkdir -p "$2"
    awk -v heading="## $1" -v folder="$2" '
        /^## / { inside = $0 == heading }
        inside && /^```sh/ { file = folder "/" ++number; printf "" > file; next }
        /^```/ { file = "" }
        file != "" { print > file }' "$book"
}
blocks 'Headers as a table' "$work/headers"
blocks 'What is wrong with a file' "$work/wrong"
blocks 'Many files at once' "$work/repair"
blocks 'A folder in one table' "$work/inventory"

# left_out WHAT: what cannot be tried here
left_out() {
    printf 'left out: there is no %s\n' "$1"
    [ -z "${CI:-}" ] || tell "$1 is there" 'it is not'
}

# can_run RECIPE: false, with a word, where it needs GNU parallel and there is none
can_run() {
    ! grep -q '| parallel\|^ *parallel' "$1" || command -v parallel > /dev/null && return
    left_out parallel
    return 1
}

# paste FILE: the commands of a recipe, as they are pasted
paste() { bash "$1" > told 2>&1 < /dev/null; }

# rows NAME: a name as a row has it: as bash would quote it where a control character is in it
shown() { case $1 in *[[:cntrl:]]*) printf %q "$1" ;; *) printf %s "$1" ;; esac; }

# put NAME EXAMPLE BYTES: a file below `master`, the first bytes of an example
put() {
    local to=master/$1
    mkdir -p "${to%/*}"
    head -c "${3:-1000000}" "$examples/$2" > "$to"
}

# hard_names: files below `master` whose names are hard to pass on, and what each recipe has to say of them: `repaired`, `listed`
hard_names() {
    local name
    rm -rf master
    : > repaired
    : > listed
    for name in plain 'two  blanks' ' blank in front' "it's" 'a "quoted" word' "\"both' of them" 'back\slash' 'a\nb' '$HOME `date` $(date)' 'star *' '[ab]?' \
        '-n' 'a;b&c|d' '#note' '{}' $'\303\251' $'a tab\tin it' $'a line\nfeed' $'two\n\nlines\n' 'line 1/a' 'line 2/a' $'folder\n1/a' 'a  b/ c/d'; do
        put "$name.sgy" wrong_line.sgy
        printf '0\t%s\n' "$(shown "master/$name.sgy")" >> repaired
        printf '%s\t12\t5\t4000\t3\t101..103\t201..204\tF6\n' "$(shown "master/$name.sgy")" >> listed
    done
    for name in 'floats 1' $'floats\n2'; do
        put "$name.sgy" float_line.sgy
        printf '0\t%s\n' "$(shown "master/$name.sgy")" >> repaired
        printf '%s\t12\t5\t4000\t1\t101..103\t201..204\tF6\n' "$(shown "master/$name.sgy")" >> listed
    done
    for name in torn $'torn "line"\nfeed' "line 2/it's torn"; do
        put "$name.sgy" wrong_line.sgy 6000
        printf '3\t%s\tload refused L14 truncated trace 10\n' "$(shown "master/$name.sgy")" >> repaired
        printf '%s\tload refused L14 truncated trace 10\n' "$(shown "master/$name.sgy")" >> listed
    done
    for name in 'of three traces' $'of three\ntraces'; do
        put "$name.sgy" survey.sgy
        printf '1\t%s\trefused E01 no trace 5 of 3\n' "$(shown "master/$name.sgy")" >> repaired
        printf '%s\t3\t2\t4000\t3\t10..10\t21..23\tnone\n' "$(shown "master/$name.sgy")" >> listed
    done
    sort -o repaired repaired
    sort -o listed listed
}

# wrong_results: the files of which there is no result that should be, or a wrong one, or one that should not be
wrong_results() {
    local file result
    while IFS= read -r -d '' file; do
        result=fixed/${file#master/}
        case $file in
            *torn* | *'of three'*) [ ! -e "$result" ] || printf 'there is %q\n' "$result" ;;
            *) cmp -s "$result" "$(case $file in *floats*) echo floats.wanted ;; *) echo "$examples/cube.sgy" ;; esac)" || printf 'not mended: %q\n' "$file" ;;
        esac
    done < <(find master -name '*.sgy' -print0)
}

# many: more files than a command line of this shell's limit, or an array of Slurm, takes
many() {
    local name
    rm -rf master
    mkdir -p master/all
    cp "$examples/wrong_line.sgy" first.sgy
    for name in $(seq -f "%0200.0f" 1010); do ln first.sgy "master/all/$name.sgy"; done
}

# ready KIND: a folder of its own for a recipe, where the first block of its section has been run, with the example files
ready() {
    rm -rf "$work/room"
    mkdir "$work/room"
    cd "$work/room" || exit 1
    cp "$examples"/*.sgy .
    paste "$work/$1/1" || tell "the first block of $1" "$(cat told)"
    rm -rf fixed
    echo 'renumber 5 8 inline 102 0' | segywb float_line.sgy --opaque-samples --script - --out floats.wanted > told
}

# ---- each way to repair many files: its rows and its results
for recipe in $(ls "$work/repair" | grep -v '^1$'); do
    can_run "$work/repair/$recipe" || continue
    ready repair
    hard_names
    paste "$work/repair/$recipe"
    sort -o repair.log repair.log
    same "rows of repair $recipe" repair.log repaired
    wrong_results > results
    same "results of repair $recipe" results /dev/null
    ready repair
    many
    (ulimit -s 512; paste "$work/repair/$recipe")
    if [ "$(grep -c '^0' repair.log)" = 1010 ] && [ "$(find fixed -name '*.sgy' | wc -l)" = 1010 ]; then tell "many files, repair $recipe" ok; else tell "many files, repair $recipe" "$(head -n 3 told | cut -c 1-200)"; fi
done

# ---- each way to list many files
for recipe in $(ls "$work/inventory" | grep -v '^1$'); do
    can_run "$work/inventory/$recipe" || continue
    ready inventory
    hard_names
    paste "$work/inventory/$recipe"
    grep -v $'^file\ttraces' inventory.tsv | sort > rows.told
    same "rows of inventory $recipe" rows.told listed
    ready inventory
    many
    (ulimit -s 512; paste "$work/inventory/$recipe")
    if [ "$(grep -c $'\tF6$' inventory.tsv)" = 1010 ]; then tell "many files, inventory $recipe" ok; else tell "many files, inventory $recipe" "$(head -n 3 told | cut -c 1-200)"; fi
done
[ "$(ls "$work/repair" | wc -l)" -ge 4 ] && [ "$(ls "$work/inventory" | wc -l)" -ge 4 ] && tell 'there are recipes' ok || tell 'there are recipes' 'fewer than four'

# ---- a file that another program took away meanwhile has a row too
ready repair
bash repair master fixed master/absent.sgy > told
same 'repair of no file' told <(printf '3\tmaster/absent.sgy\tsegywb: cannot open master/absent.sgy\n')
ready inventory
bash inventory absent.sgy > told
same 'inventory of no file' told <(printf 'absent.sgy\tsegywb: cannot open absent.sgy\n')

# ---- so have a file whose name is no UTF-8, and one at which the program is killed
put $'\377.sgy' cube.sgy
bash inventory $'master/\377.sgy' > told
same 'inventory of a name that is no UTF-8' told <(printf 'master/\377.sgy\tsegywb: cannot read the command line\n')
mkdir killed
printf '#!/bin/bash\necho info order big revision 1.0 format 3 samples 5 fixed yes extensions 0 blocks 0 trailer 0 traces 12 bytes 6600\nkill -9 $$\n' > killed/segywb
chmod +x killed/segywb
PATH="$PWD/killed:$PATH" bash inventory cube.sgy > told 2> errors
same 'inventory where the program is killed' told <(printf 'cube.sgy\tthe program ended early\n')
ready repair
put $'\377.sgy' cube.sgy
bash repair master fixed $'master/\377.sgy' > told
same 'repair of a name that is no UTF-8' told <(printf '2\tmaster/\377.sgy\tsegywb: cannot read the command line\n')

# ---- the problems of each file of a folder
ready headers
hard_names
cd master || exit 1
grep -l '^for file in' "$work"/wrong/* | while read -r recipe; do bash "$recipe" < /dev/null 2> /dev/null; done | sort > ../told
for file in *.sgy; do
    case $file in
        *torn*) printf '%q load refused L14 truncated trace 10\n' "$file" ;;
        *'of three'*) printf '%q none\n' "$file" ;;
        *) printf '%q F6\n' "$file" ;;
    esac
done | sort > ../wanted
cd .. || exit 1
same 'the problems of each file' told wanted

# ---- headers of any name; a file or a field that is refused ends it, and says so
for name in plain 'two  blanks' $'a line\nfeed' $'floats\n2' "\"both' of them"; do
    bash headers "master/$name.sgy" inline crossline > told 2>&1
    same "headers of $(printf %q "$name")" told <(printf '%s 101 %s\n' 1 201 2 202 3 203 4 204 5 201 6 202 7 203 8 204; printf '%s 103 %s\n' 9 201 10 202 11 203 12 204)
done
bash headers $'master/torn "line"\nfeed.sgy' inline > told 2> errors
[ $? = 3 ] && [ ! -s told ] && grep -q 'L14 truncated' errors && tell 'headers of a refused file' ok || tell 'headers of a refused file' "$(cat told errors)"
bash headers master/plain.sgy inlin > told 2> errors
[ $? = 1 ] && [ ! -s told ] && grep -q 'E02 no field' errors && tell 'headers of no field' ok || tell 'headers of no field' "$(cat told errors)"

# ---- the README's lines for the Python package, but the first, which installs Debian's
mkdir "$work/clone"
cd "$work/clone" || exit 1
cp -r "$here/../python" "$here/../dist" "$here"/../LICENSE* .
printf '#!/bin/sh\nexec %s "$@"\n' "${PYTHON:-/usr/bin/python3}" > "$work/bin/python3"
chmod +x "$work/bin/python3"
if python3 -c 'import ensurepip' 2> /dev/null; then
    awk '/^```bash/ { inside = 1; next } /^```/ { inside = 0 } inside' "${README:-$here/../README.md}" | grep 'venv \|pip' | grep -v apt-get > lines
    bash -e lines > told 2>&1 && cmp "$HOME"/segywb-env/lib/python3*/site-packages/segywb/segywb-x86_64-linux dist/segywb-x86_64-linux >> told 2>&1 &&
        "$HOME/segywb-env/bin/segywb-desk" --help > help 2>> told && grep -q '^usage: segywb-desk' help && tell 'a virtual environment' ok || tell 'a virtual environment' "$(cat told)"
else
    left_out python3-venv
fi

printf 'recipes: %d passed, %d failed\n' "$passed" "$failed"
[ "$failed" = 0 ]
