SHELL := /bin/bash
.SHELLFLAGS := -eu -o pipefail -c
.PHONY: run test install bench count easton

# Where `make install` puts the library.
PREFIX ?= /usr/local
ARCHIVE := target/staticlib/libcard.a
BENCH := target/bin/bench
SOURCES := crates.txt $(shell find crates -path '*/out' -prune -o \( -name '*.rt' -o -name '*.antt' \) -print)

# The sample sessions through the bench program, each line with its answer.
run: $(BENCH)
	@scripts/run-sample

# The gate. Its last line is rt's own count.
test:
	@scripts/gate

$(BENCH): programs/bench.c $(SOURCES)
	@scripts/build-bench

$(ARCHIVE): $(SOURCES)
	@echo "Proving the library and making its archive; the first time takes minutes."
	@scripts/quietly scripts/build-archive

# The archive, its header and a pkg-config file, below PREFIX.
install: $(ARCHIVE)
	@scripts/install "$(PREFIX)"

# The library against the Rust implementation: single calls, batches, season copies, journals, histories, stack.
bench: $(ARCHIVE)
	@cd rust && for table in speed batch season journal history stack; do cargo bench --offline --bench $$table; done

# The instructions of a look, counted by callgrind: what a change costs, the same on every machine.
count: $(ARCHIVE)
	@scripts/count-instructions

# Easton's experiment on the library.
easton: $(ARCHIVE)
	@cd rust && cargo run --release --offline --example easton
