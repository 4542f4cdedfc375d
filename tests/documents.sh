# The documents, and what is made from them or beside them. Sourced by run.sh, which has `program`, `here`, `work` and `tell`.
top=$(cd "$here/.." && pwd)

# same NAME ONE OTHER: two texts, told by their first difference
same() {
    if [ "$2" = "$3" ]; then tell "$1" ok; else tell "$1" "$(diff <(echo "$2") <(echo "$3") | head -n 5)"; fi
}

# runs_well NAME WORD..: a command that ends with status 0
runs_well() {
    local name=$1 told
    shift
    if told=$("$@" 2>&1); then tell "$name" ok; else tell "$name" "$told"; fi
}

# ---- each example of each document
examples=0
for document in "$top"/README.md "$top"/CONTRIBUTING.md "$top"/docs/*.md "$top"/tests/transcripts/*.md; do
    document=${document#"$top"/}
    grep -q '^```\(sh\|text\)' "$top/$document" || continue
    examples=$((examples + 1))
    if told=$(cd "$top" && bash tests/transcripts.sh "$program" "$document" 2>&1); then tell "examples of $document" ok; grep '^left out' <<< "$told"; else tell "examples of $document" "$told"; fi
done
[ "$examples" -ge 4 ] && tell 'documents with examples' ok || tell 'documents with examples' "$examples"

# ---- the example files, the man pages, the rows of the definitions and the picture of the house are what their sources give
mkdir made
runs_well 'examples are made' bash "$top/examples/make" made
runs_well 'the example files' diff -r -x make -x "*.ipynb" -x "*.py" made "$top/examples"
rm -rf made
runs_well 'man pages are made' bash "$top/tools/manpages" made
runs_well 'the man pages are those of the manual' diff -r made "$top/man"
runs_well 'the rows of the definitions' bash "$top/tools/definitions" --check
runs_well 'the tables of the names' bash "$top/tools/names" --check
runs_well 'the picture of the house, and the table of its crates' python3 -B "$top/tools/house"
runs_well 'the lines between the theorem and OUT' python3 -B "$top/tools/outside"
for page in segywb.1 segywb-script.5 segywb-plot.1 segywb-report.1 segywb-desk.1 segywb-library.1; do
    if command -v mandoc > /dev/null; then same "mandoc on $page" "$(mandoc -Tlint "$top/man/$page" 2>&1)" ''; fi
    if command -v man > /dev/null && man --help 2>&1 | grep -q -- --warnings; then
        same "man on $page" "$(LC_ALL=C man --warnings -E UTF-8 -l -Tutf8 -Z "$top/man/$page" 2>&1 > /dev/null)" ''
    fi
done

# ---- the manual has each name at its place, each command, each refusal
names() {
    cat "$top/crates/field_map/specs/"{StandardNames,HeaderNames,Binding}.antt |
        sed -n 's/.*(codes "\([a-z0-9_]*\)", \([a-z_]*\) \([0-9]*\) \([0-9]*\)).*/\1 \2 \3 \4/p' |
        while read -r name kind byte size; do
            bytes=bytes
            [ "$size" != 1 ] || bytes=byte
            case $kind in
                signed_at) echo "$name @$byte:$size $size $bytes, signed" ;;
                unsigned_at) echo "$name @$byte:${size}u $size $bytes, unsigned" ;;
                signed_in_first_extension) echo "$name @1.$byte:$size $size $bytes, signed" ;;
                unsigned_in_first_extension) echo "$name @1.$byte:${size}u $size $bytes, unsigned" ;;
            esac
        done | sort -u
}
same 'the names of the manual' "$(names)" "$(sed -n 's/^| `\([a-z0-9_]*\)` | `\(@[^`]*\)` | \([^|]*\) |.*/\1 \2 \3/p' "$top/docs/MANUAL.md" | sort)"
[ "$(names | wc -l)" -ge 126 ] && tell 'there are names' ok || tell 'there are names' "$(names | wc -l)"
# MapCommands.antt has the words behind one command, and no command.
commands() { cat $(ls "$top/crates/script_words/specs/"*Commands.antt | grep -v '/MapCommands') | sed -n 's/.*(codes "\([a-z]*\)", .*/\1/p' | sort; }
same 'the commands of the manual' "$(commands)" "$(sed -n 's/^### \([a-z]*\).*/\1/p' "$top/docs/MANUAL.md" | sort)"
[ "$(commands | wc -l)" -ge 30 ] && tell 'there are commands' ok || tell 'there are commands' "$(commands | wc -l)"
# a fault's words: its code, `trace` where it is of a trace, and the words between its numbers, which are capitals in the manual
fault_words() {
    sed -n '/^fault_text (/{s/.*= of_trace_text (codes "\(F[0-9]\)") p/\1 trace/; s/.*= with_blanks (codes "\(F[0-9]\)"/\1/; s/(\?codes "\([a-z]*\)"/\1/g; s/signed_decimal [a-z]\|decimal [a-z]\|\[\]\|[()∷]//g; s/  */ /g; s/ $//; p}' \
        "$top/crates/script_text/specs/ReportTexts.antt" | sort
}
# the manual without its section on problems, whose codes are those of faults, and others
but_problems() { sed '/^### problems/,/^## /d' "$top/docs/MANUAL.md"; }
fault_rows() { but_problems | sed -n 's/^| \(F[0-9]\) | `\([^`]*\)` |.*/\1 \2/p' | sed 's/ [A-Z]\( \|$\)/\1/g' | sort; }
same 'the faults of the manual' "$(fault_words)" "$(fault_rows)"
problem_codes() { grep -o 'codes "\(problem \)\?[FS][0-9]*' "$top/crates/script_text/specs/ProblemTexts.antt" | grep -o '[FS][0-9]*$' | sort -V; }
problem_rows() { sed -n '/^### problems/,/^## /s/^| \([FS][0-9]*\) |.*/\1/p' "$top/docs/MANUAL.md"; }
same 'the problems of the manual' "$(problem_codes)" "$(problem_rows)"
# a text of the definitions ends where a number follows, and the manual has a letter there
texts() { grep -o 'codes "[LPSE][0-9][0-9] [^"]*"' "$top/crates/refusal_texts/specs/RefusalTexts.antt" | sed 's/codes "//; s/ *"$//' | sort -u; }
rows() { but_problems | sed -n 's/^| \([LPSE][0-9][0-9]\) | `\([^`]*\)` |.*/\1 \2/p' | sed 's/ [A-Z]\( of N\| bytes\)\?$//; s/ A\.B$//' | sort -u; }
same 'the refusals of the manual' "$(texts)" "$(rows)"
[ "$(texts | wc -l)" -ge 40 ] && tell 'there are refusals' ok || tell 'there are refusals' "$(texts | wc -l)"

# ---- each file that a document names is there
missing=$(cd "$top" && {
    grep -oh '`crates/[^` ]*`' README.md CONTRIBUTING.md docs/*.md | tr -d '`' | grep -v '[*]\|NAME\|FUNCTION\|/out/'
    # rows as `CRATE/specs/A.antt`, `B.antt`; ..
    sed -n '/^| What | Files |/,/^$/p' docs/PROOF.md | grep -o '`[a-z_]*/specs/[^`]*`\|`[A-Za-z]*\.antt`' | tr -d '`' |
        while read -r file; do
            case $file in */*) folder=crates/${file%/*}; echo "crates/$file" ;; *) echo "$folder/$file" ;; esac
        done
} | sort -u | while read -r file; do [ -e "$file" ] || echo "$file"; done)
same 'files that documents name' "$missing" ''

# ---- the README is short, and each link of a document leads to a file, and to a heading of it
[ "$(wc -l < "$top/README.md")" -lt 120 ] && tell 'the README is short' ok || tell 'the README is short' "$(wc -l < "$top/README.md") lines"
# headings FILE: as links name them
headings() { sed -n 's/^##* //p' "$1" | tr '[:upper:]' '[:lower:]' | sed 's/[^a-z0-9 _-]//g; s/ /-/g'; }
lost=$(cd "$top" && for document in README.md CONTRIBUTING.md docs/*.md; do
    grep -o '](\(\.\./\)*[A-Za-z0-9_/.#-]*)' "$document" | sed 's/^](//; s/)$//' | sort -u | while read -r link; do
        file=${link%%#*}
        [ -n "$file" ] && file=$(dirname "$document")/$file || file=$document
        case $link in *#*) heading=${link#*#} ;; *) heading='' ;; esac
        [ -f "$file" ] && { [ -z "$heading" ] || headings "$file" | grep -qxF -- "$heading"; } || echo "$document: $link"
    done
done)
same 'links of documents' "$lost" ''

# ---- the version, and the completions, which know the options of --help and no others
same 'the version' "$("$program" --version 2>&1)" "segywb $(cat "$top/VERSION")"
options() { grep -o -e '--[a-z][a-z-]*' | sort -u; }
shown=$("$program" --help 2>&1 | sed -n '/^Options:/,/^$/p' | options)
same 'bash completes' "$(options < "$top/completions/segywb.bash")" "$shown"
same 'zsh completes' "$(options < "$top/completions/_segywb")" "$shown"
same 'fish completes' "$(sed -n 's/.* -l \([a-z-]*\).*/--\1/p' "$top/completions/segywb.fish" | sort -u)" "$shown"
runs_well 'the completion for bash' bash -n "$top/completions/segywb.bash"
if command -v zsh > /dev/null; then runs_well 'the completion for zsh' zsh -n "$top/completions/_segywb"; fi
if command -v fish > /dev/null; then runs_well 'the completion for fish' fish -n "$top/completions/segywb.fish"; fi
completed=$(bash -c '. "$1"; COMP_WORDS=(segywb --m); COMP_CWORD=1; _segywb; echo "${COMPREPLY[@]}"' - "$top/completions/segywb.bash")
same 'bash completes a word' "$completed" --max-bytes

# the tools' completions know the options of all four, and those of each where bash is asked
desk_help() { PYTHONPATH="$top/python/src" "${PYTHON:-/usr/bin/python3}" -c 'from segywb.desk.cli import main; main(["--help"])'; }
library_help() { for word in scan merge report mend verify undo; do PYTHONPATH="$top/python/src" "${PYTHON:-/usr/bin/python3}" -B -m segywb.library $word --help; done; }
shown=$({ bash "$top/tools/segywb-plot" --help; bash "$top/tools/segywb-report" --help; desk_help; library_help; } 2>&1 | options)
same 'bash completes the tools' "$(options < "$top/completions/tools.bash")" "$shown"
same 'zsh completes the tools' "$(options < "$top/completions/_segywb_tools")" "$shown"
same 'fish completes the tools' "$(sed -n 's/.* -l \([a-z-]*\).*/--\1/p' "$top/completions/tools.fish" | sort -u)" "$shown"
runs_well 'the completion of the tools for bash' bash -n "$top/completions/tools.bash"
if command -v zsh > /dev/null; then runs_well 'the completion of the tools for zsh' zsh -n "$top/completions/_segywb_tools"; fi
if command -v fish > /dev/null; then runs_well 'the completion of the tools for fish' fish -n "$top/completions/tools.fish"; fi
completed() { bash -c '. "$1"; COMP_WORDS=("${@:2}"); COMP_CWORD=$(($# - 2)); _segywb_tool 2> /dev/null; echo "${COMPREPLY[@]}"' - "$top/completions/tools.bash" "$@"; }
same 'bash completes a picture' "$(completed segywb-plot coord)" coordinates
same 'bash completes an option of a tool' "$(completed segywb-desk --no)" --no-browser
same 'and none of another tool' "$(completed segywb-report --cl)" ''
same 'bash completes a command of a tool' "$(completed segywb-library me)" 'merge mend'
same 'and its options' "$(completed segywb-library undo --r)" --run

# ---- install and uninstall
place() { (cd "$top" && env -u MAKEFLAGS -u MAKELEVEL -u MFLAGS make -s "$@" PROGRAM="$program" DESTDIR="$work/root" PREFIX=/opt/segywb); }
runs_well 'make install' place install
runs_well 'the program that was installed' cmp "$program" root/opt/segywb/bin/segywb
same 'what was installed' "$(cd root && find . -type f | grep -v examples | sort)" './opt/segywb/bin/segywb
./opt/segywb/bin/segywb-plot
./opt/segywb/bin/segywb-report
./opt/segywb/share/bash-completion/completions/segywb
./opt/segywb/share/bash-completion/completions/segywb-desk
./opt/segywb/share/bash-completion/completions/segywb-library
./opt/segywb/share/bash-completion/completions/segywb-plot
./opt/segywb/share/bash-completion/completions/segywb-report
./opt/segywb/share/doc/segywb/COOKBOOK.md
./opt/segywb/share/doc/segywb/LICENSE
./opt/segywb/share/doc/segywb/LICENSE-APACHE
./opt/segywb/share/doc/segywb/LICENSE-MIT
./opt/segywb/share/doc/segywb/MANUAL.md
./opt/segywb/share/fish/vendor_completions.d/segywb-desk.fish
./opt/segywb/share/fish/vendor_completions.d/segywb-library.fish
./opt/segywb/share/fish/vendor_completions.d/segywb-plot.fish
./opt/segywb/share/fish/vendor_completions.d/segywb-report.fish
./opt/segywb/share/fish/vendor_completions.d/segywb.fish
./opt/segywb/share/man/man1/segywb-desk.1
./opt/segywb/share/man/man1/segywb-library.1
./opt/segywb/share/man/man1/segywb-plot.1
./opt/segywb/share/man/man1/segywb-report.1
./opt/segywb/share/man/man1/segywb.1
./opt/segywb/share/man/man5/segywb-script.5
./opt/segywb/share/zsh/site-functions/_segywb
./opt/segywb/share/zsh/site-functions/_segywb_tools'
runs_well 'make uninstall' place uninstall
same 'what is left' "$(find root -type f)" ''
