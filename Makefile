# Acornskiff: what to run. `make help` lists it.
SHELL := /bin/bash
.SHELLFLAGS := -o pipefail -c
SECONDS ?= 60
RUNS ?= 100000
SEED ?= 1

.PHONY: help demo test example compare fuzz bench program library clean

help:
	@echo "make demo     prove and build the trace program, and run it on the worked trace"
	@echo "make test     prove every crate, try every wrong version, run every comparison"
	@echo "make example  build the C library and run the drawing program over it"
	@echo "make compare  compare random traces with the independent program for SECONDS=$(SECONDS)"
	@echo "make fuzz     fuzz the C calls against the independent program, RUNS=$(RUNS) each from SEED=$(SEED)"
	@echo "make bench    time the program and the C calls against plain C"
	@echo "make program  prove and build the trace program, target/bin/trace"
	@echo "make library  prove and build the C library, target/staticlib/libpieces.a"
	@echo "make clean    remove what was built"

demo:
	@echo "proving and building the trace program: a few minutes the first time"
	@$(MAKE) --no-print-directory program
	@echo "the worked trace, input left:"
	@paste crates/trace/stdin <(tests/x86 target/bin/trace < crates/trace/stdin)

test:
	@.ci/test

program:
	@cd crates/trace && rt run < stdin 2>&1 > /dev/null | grep --line-buffered '^rt:'
	@install -D crates/trace/out/trace target/bin/trace

library:
	@cd crates/pieces && rt lib | tail -n 1
	@install -D -m 644 crates/pieces/out/libpieces.a target/staticlib/libpieces.a

example: library
	@examples/run

compare: program
	@cd tests/compare && CARGO_TARGET_DIR=$(CURDIR)/target/tests cargo build --release --offline --quiet -j1
	@cd tests && $(CURDIR)/target/tests/release/compare --program "./x86 $(CURDIR)/target/bin/trace" --seconds $(SECONDS)

fuzz: library
	@cd tests/doors && CARGO_TARGET_DIR=$(CURDIR)/target/tests cargo build --release --offline --quiet -j1
	@tests/doors/build-door target/staticlib target/tests/door
	@target/tests/release/doors --door "tests/x86 target/tests/door" --fuzz $(RUNS) --seed $(SEED)

bench: program library
	@bench/run target/bin/trace target/staticlib

clean:
	rm -rf target crates/*/out

.DEFAULT:
	@echo "there is no command '$@'; make help lists them" >&2; exit 2
