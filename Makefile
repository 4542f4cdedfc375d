# For use, without any toolchain:
#   make demo       the first job on a sample file, with the shipped program
#   make install    the program, its tools for pictures, its man pages and completions, under PREFIX (and DESTDIR); make uninstall takes them away
#   make quick      the end-to-end tests, in about ten minutes
#   make python     the tests of the Python package
#   make desk       the tests of the desk, in a browser
#   make library    the tests of segywb-library
# With the Rattle kit (the command rt on the PATH):
#   make build      proves and builds the program from the sources
#   make test       the whole gate: every proof from nothing, the must-fail edits, then the end-to-end runs
#   make speed      the speed, as ratios to cp and md5sum
#   make dist       the program that was built becomes the shipped one
# demo, install, quick, python, desk and library take the shipped program, or the one that PROGRAM=.. names.
SHIPPED = dist/segywb-x86_64-linux
BUILT = crates/segywb/out/segywb
TIMINGS = crates/timings/out/timings
PROGRAM ?= $(SHIPPED)
PREFIX ?= /usr/local
DESTDIR ?=
INTO = $(DESTDIR)$(PREFIX)
TOOLS = segywb-plot segywb-report segywb-desk segywb-library

.PHONY: help demo quick python desk library install uninstall build test dist speed pages program

help:
	@sed -n '/^#/s/^# *//p; /^SHIPPED/q' Makefile

program:
	@test -x $(PROGRAM) || { echo 'There is no program $(PROGRAM): make build makes $(BUILT), and PROGRAM=.. names another.'; exit 1; }

demo: program
	@bash tests/demo.sh $(PROGRAM)

quick: program
	bash tests/run.sh $(PROGRAM)

python: program
	bash tests/python.sh $(PROGRAM)

desk: program
	bash tests/desk.sh $(PROGRAM)

library: program
	bash tests/library.sh $(PROGRAM)

build:
	tools/build

test:
	@echo 'The whole gate: each proof, must-fail edit, test and run. docs/TIMES.md says how long it takes.'
	@test -x $(SHIPPED) || { echo 'There is no shipped program $(SHIPPED): make build, then make dist.'; exit 1; }
	bash tests/lines.sh
	python3 tests/edits_fit.py
	python3 tests/crates_named.py
	bash tests/by_hand.sh
	bash tests/rooms.sh
	cd dist && sha256sum -c SHA256SUMS
	rm -f $(BUILT)
	bash tests/gate.sh $(BUILT) $(SHIPPED)

# Once for each delivery, after make build.
dist:
	test -x $(BUILT)
	install -D -m 755 $(BUILT) $(SHIPPED)
	cd dist && sha256sum segywb-x86_64-linux > SHA256SUMS

# What is made from other files: the tables of names in docs/MANUAL.md from the program's, the man pages and the words of the desk from docs/MANUAL.md, the rows of docs/DEFINITIONS.md from the comments, the picture of the house from crates.txt, the count of lines in docs/PROOF.md.
pages:
	tools/names --write
	tools/manpages man
	tools/definitions
	tools/house --write
	tools/outside --write
	tools/desk-words docs/MANUAL.md > python/src/segywb/desk/manual.txt

install: program
	install -D -m 755 $(PROGRAM) $(INTO)/bin/segywb
	install -m 755 -t $(INTO)/bin tools/segywb-plot tools/segywb-report
	install -D -m 644 -t $(INTO)/share/man/man1 man/segywb.1 man/segywb-plot.1 man/segywb-report.1 man/segywb-desk.1 man/segywb-library.1
	install -D -m 644 man/segywb-script.5 $(INTO)/share/man/man5/segywb-script.5
	install -D -m 644 completions/segywb.bash $(INTO)/share/bash-completion/completions/segywb
	install -D -m 644 completions/_segywb $(INTO)/share/zsh/site-functions/_segywb
	install -D -m 644 completions/segywb.fish $(INTO)/share/fish/vendor_completions.d/segywb.fish
	for tool in $(TOOLS); do \
	    install -m 644 completions/tools.bash $(INTO)/share/bash-completion/completions/$$tool && \
	    install -m 644 completions/tools.fish $(INTO)/share/fish/vendor_completions.d/$$tool.fish || exit 1; \
	done
	install -m 644 completions/_segywb_tools $(INTO)/share/zsh/site-functions/_segywb_tools
	install -D -m 644 -t $(INTO)/share/doc/segywb LICENSE LICENSE-MIT LICENSE-APACHE docs/MANUAL.md docs/COOKBOOK.md
	install -D -m 644 -t $(INTO)/share/doc/segywb/examples examples/*.sgy

uninstall:
	rm -f $(INTO)/bin/segywb $(INTO)/bin/segywb-plot $(INTO)/bin/segywb-report
	rm -f $(INTO)/share/man/man1/segywb.1 $(INTO)/share/man/man1/segywb-plot.1 $(INTO)/share/man/man1/segywb-report.1 $(INTO)/share/man/man1/segywb-desk.1 $(INTO)/share/man/man1/segywb-library.1
	rm -f $(INTO)/share/man/man5/segywb-script.5
	rm -f $(INTO)/share/bash-completion/completions/segywb
	rm -f $(INTO)/share/zsh/site-functions/_segywb
	rm -f $(INTO)/share/fish/vendor_completions.d/segywb.fish
	for tool in $(TOOLS); do rm -f $(INTO)/share/bash-completion/completions/$$tool $(INTO)/share/fish/vendor_completions.d/$$tool.fish; done
	rm -f $(INTO)/share/zsh/site-functions/_segywb_tools
	rm -rf $(INTO)/share/doc/segywb

# Speed: the program as ratios to cp and md5sum of the same file in the same run: the jobs of a repair, loads and saves, reports,
# slices, floats, renumberings, chosen traces, samples of many, headers, a volume on disk, Python, the desk, a library of files, and the order of traces at three sizes.
speed: build
	cd crates/timings && { rt run > out.log 2>&1 || true; }
	bash speed/jobs $(BUILT)
	bash speed/run $(BUILT) $(TIMINGS)
	bash speed/save $(BUILT)
	bash speed/live $(BUILT)
	bash speed/slices $(BUILT)
	bash speed/floats $(BUILT)
	bash speed/renumber $(BUILT)
	bash speed/chosen $(BUILT)
	bash speed/samples $(BUILT)
	bash speed/headers $(BUILT)
	bash speed/disk $(BUILT)
	bash speed/python $(BUILT)
	bash speed/desk $(BUILT)
	bash speed/desk $(BUILT) 100000 1500
	bash speed/library $(BUILT)
	bash speed/orders $(TIMINGS)
