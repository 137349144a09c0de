# The two commands: `make demo` shows the program at work, `make test` is the gate.

.PHONY: demo build install library install-library dist test test-tools test-library check edits answers plant bench gate-times pictures clean help

PREFIX ?= /usr/local

help:
	@echo 'make demo              msthost at work on the examples: at once without proofs, and then proved'
	@echo 'make build             proves msthost with all that it stands on, and builds target/msthost'
	@echo 'make install PREFIX=.. puts target/msthost, its manual page and what shells complete of it below PREFIX'
	@echo 'make library           proves the library for programs in C, Rust, Python, Node and Go, and builds it into target/library'
	@echo 'make install-library PREFIX=..  puts it, its header, its pkg-config file and the bindings below PREFIX'
	@echo 'make dist              one archive of program, library and bindings for Linux on x86-64, in target/dist'
	@echo 'make test              the gate: every proof, must-fail edit, test and program, from nothing, and make test-library'
	@echo 'make test-tools        the tests of tools/, in some seconds'
	@echo 'make test-library      proves and builds the library, and tries it from Rust, C, C++, Python, Go and Node'
	@echo 'make check             every crate, quickly, over what earlier checks kept'
	@echo 'make edits             the wrong bodies that the gate does not try, before a release; CRATE=name: of one crate'
	@echo 'make answers CRATE=name  writes out the answers that the must-fail edits of a crate break, over what make check kept'
	@echo 'make plant CRATE=name  wrong bodies that the contracts of a crate let through'
	@echo 'make bench             measures each job beside a plain program, and writes the table of docs/PERFORMANCE.md'
	@echo 'make gate-times        the gate, and the processor time that it took, crate by crate'
	@echo 'make pictures          draws docs/pictures and the tables that are made of crates.txt anew'
	@echo 'make clean             takes away what was built'

demo:
	@tools/demo $(ARGS)

build:
	@tools/build

install: build
	@tools/install $(PREFIX)

library:
	@tools/library

install-library: library
	@tools/install-library $(PREFIX)

dist: build library
	@tools/dist

test: test-tools
	@tools/version
	@tools/layout
	@tools/edits --apply
	@tools/readme-example
	@tools/must-not-compile
	@tools/crate-tables --compare
	@tools/fault-table --compare
	@tools/library-declarations
	@tools/binding-cases --compare
	@tools/test-tools --whole
	@rt ci
	@tools/test-program
	@tools/test-library
	@tools/test-installed
	@tools/test-dist

test-tools:
	@tools/test-tools

test-library:
	@tools/test-library

check:
	@rt all check

edits:
	@tools/edits $(CRATE)

answers:
	@test -n "$(CRATE)" || { echo 'usage: make answers CRATE=name'; exit 2; }
	@tools/written-answers $(CRATE)

plant:
	@test -n "$(CRATE)" || { echo 'usage: make plant CRATE=name'; exit 2; }
	@cd crates/$(CRATE) && rt plant

bench:
	@tools/bench $(ARGS)

gate-times:
	@tools/gate-times

pictures:
	@tools/crate-tables
	@tools/draw-pictures

clean:
	@rm -rf crates/*/out target
