# `make` proves and builds what `make install` installs. `make test` is the gate: that the table of the documents' sentences cites what is there, then
# every proof, every edit that must fail and every program, then the Rust tests, and the proved library beside the second program, as C and installed.
# Its last line is rt's own count.
SHELL := /bin/bash
.SHELLFLAGS := -eu -o pipefail -c
.PHONY: all test trace ctest ctest-archive ctest-prototypes ctest-calls ctest-header cases books program installed install uninstall run bench soak

CARGO_TEST := cargo test --offline --quiet --manifest-path
CARGO_BUILD := cargo build --offline --quiet --release --manifest-path

# What `rt` builds stands beside the crate that it is built of.
ARCHIVE := crates/capi/out/libcapi.a
SHARES := crates/shares/out/shares
WHY := crates/why/out/why
SOURCES := crates.txt $(shell find crates -name out -prune -o \( -name '*.rt' -o -name '*.antt' \) -print)
VERSION := $(shell sed -n 's/^\#define SHARES_VERSION "\(.*\)"/\1/p' include/shares.h)
CALLS := $(shell sed -n 's/^uint[0-9]*_t \(shares_[a-z_]*\).*/\1/p' include/shares.h)

all: $(ARCHIVE) $(SHARES) $(WHY)
	@$(CARGO_BUILD) textform/Cargo.toml

$(ARCHIVE): $(SOURCES)
	@cd crates/capi && rt lib
	@touch $@

# `rt run` proves, builds and runs a program; for its version it reads no input.
$(SHARES) $(WHY): $(SOURCES)
	@cd crates/$(@F) && rt run -- --version
	@touch $@

# `rt ci` builds both programs, and passes with edits that it could not try; its line `rt: ok` counts those.
test: trace
	@begun=$$(mktemp); said=$$(mktemp); rt ci | tee "$$said"; \
	grep '^rt: ok' "$$said" | grep -v ', [0-9]* bad' > /dev/null || { echo "not every edit that must fail was tried"; exit 1; }; \
	ctests/archive "$$begun"; \
	$(CARGO_TEST) reference/Cargo.toml; \
	$(CARGO_TEST) textform/Cargo.toml; \
	$(CARGO_TEST) compare/Cargo.toml; \
	$(MAKE) --no-print-directory ctest cases books program installed; \
	tail -n 1 "$$said"; rm -f "$$begun" "$$said"

include ctests/ctests.mk install.mk

# What docs/TRACE.md cites for each sentence of the documents is there.
trace:
	@tests/trace/self
	@tests/trace/check

# The cases of the scope without a star: what the proved library answers, the second program answers too.
cases:
	@cargo run --offline --quiet --release --manifest-path reference/Cargo.toml -- cases | diff crates/cases/stdout -

# Books through the second program, through `shares` and `why`, and once more with every access watched: each with its stored text, and one that
# fills the long lists, whose text must be the same from all three.
WATCHED := valgrind --quiet --error-exitcode=1
SECOND := reference/target/release/reference

books:
	@$(CARGO_BUILD) reference/Cargo.toml
	@tests/books/check out $(SECOND) shares
	@tests/books/check out $(SHARES)
	@tests/books/check out $(WATCHED) $(SHARES)
	@tests/books/agree "$(SECOND) shares" $(SHARES) "$(WATCHED) $(SHARES)"
	@tests/books/check why $(SECOND) why
	@tests/books/check why $(WHY)
	@tests/books/check why $(WATCHED) $(WHY)
	@tests/books/agree "$(SECOND) why" $(WHY) "$(WATCHED) $(WHY)"

# The arguments of `shares` and `why`, and what they say where they cannot read or write.
program:
	@tests/program/check shares $(SHARES)
	@tests/program/check why $(WHY)

# The share-out of a book of sheets, as `shares` prints it and with names. The first time proves the library and builds the program.
TEXTFORM := cargo run --offline --quiet --release --manifest-path textform/Cargo.toml --

run: $(SHARES)
	@mkdir -p target
	@$(SHARES) < examples/festival.book | tee target/festival.out
	@echo; $(TEXTFORM) names examples/festival.txt < target/festival.out

# The proved share-out, both checks and the join timed beside a plain C program's (bench/plain.c) and the second program's.
bench: $(ARCHIVE)
	@cargo run --offline --quiet --release --manifest-path compare/Cargo.toml --bin bench

# The comparisons with the second program on COUNT inputs, which SEED decides; with KIND and INPUT, on that input of that kind alone.
COUNT := 1000000
SEED := 1

soak: $(ARCHIVE)
	@cargo run --offline --quiet --release --manifest-path compare/Cargo.toml --bin soak -- $(COUNT) $(SEED) $(if $(INPUT),'$(KIND)' $(INPUT))
