# What there is to make:
#
#   make demo                 runs the first example, by compiling the sources before their proof: a minute or two
#   make build                proves and builds the program, crates/ila/out/ila: see docs/MEASURED.md for how long
#   make test                 what the merge gate runs: each proof, must-fail edit, test and run, then check-docs
#   make install PREFIX=DIR   puts the built program and its manual page below DIR, /usr/local if none is given
#   make man                  shows the manual page
#   make measure              times the built program on large and hostile netlists
#   make compare              compares the built program with yosys and Icarus Verilog, which must be there
#   make check-docs           checks pages and examples: a few seconds
#
# All but man, check-docs, measure, compare and install need the Rattle kit, whose command is rt.
.PHONY: help demo build test install man measure compare check-docs

PREFIX ?= /usr/local
PROGRAM = crates/ila/out/ila
TOGGLE = examples/toggle

help:
	@sed -n 's/^#   //p' Makefile

demo:
	@echo "The netlist, $(TOGGLE)/tog.v:"; echo; cat $(TOGGLE)/tog.v; echo
	@echo "The stimulus, $(TOGGLE)/stimulus.txt, a header and a row for each clock:"; echo; cat $(TOGGLE)/stimulus.txt; echo
	@echo "This run is of the sources before their proof; make build proves them. Compiling them takes a minute or two."; echo
	@echo "ila sim tog.v tog clk < stimulus.txt"; echo
	@cd crates/ila && rt try --data tog.v=../../$(TOGGLE)/tog.v -- sim tog.v tog clk < ../../$(TOGGLE)/stimulus.txt

build:
	@python3 tools/build $(JOBS)

test:
	@bash .ci/run

install:
	@test -x $(PROGRAM) || { echo "There is no $(PROGRAM) yet: make build makes it."; exit 1; }
	@test -z "$$(find crates/*/src -name '*.rt' -newer $(PROGRAM))" || { echo "$(PROGRAM) is older than its sources: run make build."; exit 1; }
	install -d "$(DESTDIR)$(PREFIX)/bin" "$(DESTDIR)$(PREFIX)/share/man/man1"
	install -m 755 $(PROGRAM) "$(DESTDIR)$(PREFIX)/bin/ila"
	python3 tools/manual docs/USING.md > "$(DESTDIR)$(PREFIX)/share/man/man1/ila.1"

man:
	@python3 tools/manual docs/USING.md | man -l -

measure:
	@test -x $(PROGRAM) || { echo "There is no $(PROGRAM) yet: make build makes it."; exit 1; }
	python3 measure/hostile.py $(PROGRAM)
	python3 measure/simulate.py $(PROGRAM)

compare:
	@test -x $(PROGRAM) || { echo "There is no $(PROGRAM) yet: make build makes it."; exit 1; }
	python3 measure/compare.py $(PROGRAM)

check-docs:
	@bash tools/check
