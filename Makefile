# Mulgreddi: unambiguous Büchi automata from alternating weak ones.
#   make lib                   the static library, build/libmulgreddi.a
#   make shared                the shared library, build/libmulgreddi.so.VERSION
#   make tool                  the command line, build/mulgreddi
#   make list < FILE           the listing of a rule file; nothing else is on standard output
#   make install PREFIX=DIR    command line with completion for bash and man page, listing program, chance, header, both libraries, pkg-config file to DIR (/usr/local)
#   make uninstall PREFIX=DIR  takes them away again
#   make test                  the gate: quick checks, proofs and must-fail edits, then library, comparison, listings, tables, examples, chances, command line
#   make quick                 of it the checks that need nothing proved
#   make check-tool            of it the tests of the command line, of the header and of the installation
#   make bench                 times of the library beside those of the second program and of a C++ program without proofs, and of the step back alone
#   make soak SECONDS=600      the comparison with new seeds until the time is up
#   make compare-long SEED=1   the comparison with new seeds, from this one on, until the first difference
#   make clean                 removes build/ and what `rt` left beside each crate, crates/NAME/out
#   make help                  this list

# a step fails where any part of it does
SHELL := /bin/bash
.SHELLFLAGS := -eu -o pipefail -c

CC ?= cc
CXX ?= c++
CFLAGS ?= -O2 -std=c11 -Wall -Wextra -Werror
SECONDS ?= 600
SEED ?= 1
PREFIX ?= /usr/local
BUILD := build
# the header has the version
VERSION := $(shell awk '/define MULGREDDI_VERSION_(MAJOR|MINOR|PATCH) / { v = v d $$3; d = "." } END { print v }' include/mulgreddi.h)
# with a new major number some input is answered otherwise, so programs are linked to it by that number
SONAME := libmulgreddi.so.$(firstword $(subst ., ,$(VERSION)))
LIB := $(BUILD)/libmulgreddi.a
SHARED := $(BUILD)/libmulgreddi.so.$(VERSION)
PROGRAM := $(BUILD)/listing
TOOL := $(BUILD)/mulgreddi
# what `rt` leaves beside a crate is no source of it
SOURCES := crates.txt $(shell find crates -path 'crates/*/out' -prune -o -type f -not -path '*/must-fail/*' -print)
CARGO := CARGO_TARGET_DIR='$(CURDIR)/$(BUILD)/cargo' MULGREDDI_LIB='$(CURDIR)/$(BUILD)' cargo
EXAMPLES := $(patsubst examples/%.c,$(BUILD)/%,$(wildcard examples/*.c))

# what a build lays out for itself stands in a folder that is gone when it has ended, in memory where there is room for it
SCRATCH := tools/scratch.sh

# one `rt` at a time; the gate's last steps run side by side, since none of them calls it
ifndef BESIDE
.NOTPARALLEL:
endif

.PHONY: lib shared tool install uninstall list listings tables test quick prove-all check-tool bench soak compare compare-long second examples chances clean help

lib: $(LIB)

# a line for each crate on standard error, everything in build/log
QUIETLY := tools/quietly.sh $(BUILD)/log

# over the crates as `rt ci` left them, where it has proved them; else it proves what no check has proved yet
$(LIB): $(SOURCES)
	@echo 'Proving and compiling the library: long where nothing is proved yet. A line for each crate follows.' >&2
	@$(QUIETLY)/lib $(SCRATCH) tools/library.sh $@
	@echo '$@ is ready; $(BUILD)/log has all that was printed.' >&2

# the same code; tools/mulgreddi.map keeps all names but the entries to itself
shared: $(SHARED)

$(SHARED): $(LIB) tools/mulgreddi.map include/mulgreddi.h
	@$(CC) -shared -Wl,-soname,$(SONAME) -Wl,--version-script=tools/mulgreddi.map -Wl,--no-undefined -Wl,-z,noexecstack -o $@ \
	    -Wl,--whole-archive $(LIB) -Wl,--no-whole-archive
	@echo '$@ is ready.' >&2

# the command line stands on the header and the library alone
tool: $(TOOL)

TOOL_SOURCES := $(wildcard tools/*.c)
$(TOOL): $(TOOL_SOURCES) $(wildcard tools/*.h) include/mulgreddi.h $(LIB)
	@$(CC) $(CFLAGS) -Iinclude -o $@ $(TOOL_SOURCES) $(LIB)
	@echo '$@ is ready.' >&2

# both names come by the environment as they are: blanks and quotes in them mean nothing
install uninstall: export MULGREDDI_PREFIX = $(PREFIX)
install uninstall: export MULGREDDI_DESTDIR = $(DESTDIR)
install: $(LIB) $(SHARED) $(TOOL) $(PROGRAM) $(BUILD)/chance
	@tools/install.sh install $(BUILD) $(VERSION)

uninstall:
	@tools/install.sh uninstall $(BUILD) $(VERSION)

help:
	@sed -n 's/^#   //p' Makefile

# where `rt ci` leaves a program, and `rt run`, which proves and compiles it and runs it once
LISTING := crates/listing/out/listing
# steps back from all cores of a rule, and nothing else
STEP_BACK := crates/bench_step_back/out/bench_step_back
$(LISTING) $(STEP_BACK): $(SOURCES)
	@echo 'Proving and compiling the program $(@F). A line for each crate follows.' >&2
	@$(QUIETLY)/$(@F) $(SCRATCH) env -C crates/$(@F) rt run
	@touch $@

$(PROGRAM): $(LISTING)
	@mkdir -p $(@D)
	@cp $< $@
	@echo '$@ is ready; $(BUILD)/log has all that was printed.' >&2

# on standard output is the listing alone
list: $(PROGRAM)
	@$(PROGRAM)

# the second program's own tests; what it expects of the program `cases` is what is stored there
second:
	$(CARGO) test --release --offline --quiet --manifest-path second/Cargo.toml
	$(CARGO) run --release --offline --quiet --manifest-path second/Cargo.toml --bin expect -- $(BUILD)/cases
	cmp $(BUILD)/cases/stdin crates/cases/stdin
	diff $(BUILD)/cases/stdout crates/cases/stdout

compare: $(LIB)
	$(CARGO) run --release --offline --quiet --manifest-path compare/Cargo.toml

# the listing program beside the second program
listings: $(LIB) $(PROGRAM)
	$(CARGO) run --release --offline --quiet --manifest-path compare/Cargo.toml --bin listings -- $(PROGRAM) examples

# what the build, the trimmed build and the listing give for every rule file of the repository, held to what is stored: answers stay byte for byte
RULES := $(sort $(wildcard examples/*.rule bench/*.rule compare/data/*.rule))
tables: $(LIB) $(PROGRAM)
	$(CARGO) run --release --offline --quiet --manifest-path compare/Cargo.toml --bin tables -- $(PROGRAM) $(RULES) > $(BUILD)/tables.out
	diff compare/data/tables.expected $(BUILD)/tables.out

soak: $(LIB)
	$(CARGO) run --release --offline --quiet --manifest-path compare/Cargo.toml -- --seconds $(SECONDS)

compare-long: $(LIB)
	$(CARGO) run --release --offline --quiet --manifest-path compare/Cargo.toml -- --endless --seed $(SEED)

# bench/reference.cpp is the build in C++ by sweeps over all cores, without proofs, checks and refusals of files: for speed alone
$(BUILD)/reference: bench/reference.cpp
	mkdir -p $(BUILD)
	$(CXX) -O2 -std=c++17 -o $@ $<

# bench/chains.cpp is the build by chains in C++, the library's algorithm with a table more
$(BUILD)/chains: bench/chains.cpp
	mkdir -p $(BUILD)
	$(CXX) -O2 -std=c++17 -o $@ $<

# bench/reference_events.cpp translates a log by the same two tables in C++
$(BUILD)/reference_events: bench/reference_events.cpp
	mkdir -p $(BUILD)
	$(CXX) -O2 -std=c++17 -o $@ $<

# bench/reference_hoa.cpp writes the text of a table, and reads it, in C++ beside the library
$(BUILD)/reference_hoa: bench/reference_hoa.cpp include/mulgreddi.h $(LIB)
	$(CXX) -O2 -std=c++17 -Iinclude -o $@ $< $(LIB)

# bench/reference02.cpp trims in place, follows a log live and compares two rules, and next to each does it with a heap
$(BUILD)/reference02: bench/reference02.cpp
	mkdir -p $(BUILD)
	$(CXX) -O2 -std=c++17 -o $@ $<

# bench/follow.cpp follows a log without end by the library and by a loop in C++ that does the same
$(BUILD)/follow: bench/follow.cpp include/mulgreddi.h $(LIB)
	$(CXX) -O2 -std=c++17 -Iinclude -o $@ $< $(LIB)

# the pairs of rules that are compared, new and old; compare/src/bin/speed.rs has the same
COMPARED := strict_1 strict_1 strict_1 strict_1_less strict_8 strict_8 strict_8 strict_8_less \
  strict_8 slow_1_0 slow_1_0 strict_8 trans_1_1 strict_8 strict_8 trans_1_1 cap_62_s16 strict_8 slow_1_0 slow_1_0
bench: $(LIB) $(STEP_BACK) $(BUILD)/reference $(BUILD)/chains $(BUILD)/reference02 $(BUILD)/reference_events $(BUILD)/reference_hoa $(BUILD)/follow
	STEP_BACK=$(CURDIR)/$(STEP_BACK) $(CARGO) run --release --offline --quiet --manifest-path compare/Cargo.toml --bin speed -- $(wildcard $(CURDIR)/bench/*.rule)
	$(BUILD)/reference $(wildcard bench/*.rule)
	for r in $(wildcard bench/*.rule); do echo "$$r $$($(BUILD)/chains B $$r)"; done
	$(BUILD)/reference02 trim $(wildcard bench/*.rule)
	$(BUILD)/reference02 live $(wildcard bench/*.rule)
	$(BUILD)/follow $(wildcard bench/*.rule)
	$(BUILD)/reference02 stricter $(foreach r,$(COMPARED),bench/$(r).rule)
	$(BUILD)/reference_events
	$(BUILD)/reference_hoa $(wildcard bench/*.rule)

$(BUILD)/%: examples/%.c include/mulgreddi.h $(LIB)
	$(CC) $(CFLAGS) -Iinclude -o $@ $< $(LIB)

# the cookbook tells the chances of its rules, which this example reads off
check-tool: $(BUILD)/chance

# the chance beside exact fractions, for random rules and weights, many of them small; and what it tells of tables that are not right
chances: $(BUILD)/chance $(BUILD)/chance_wrong
	mkdir -p $(BUILD)/chances
	$(CARGO) run --release --offline --quiet --manifest-path second/Cargo.toml --bin chances -- $(BUILD)/chance $(BUILD)/chances
	tests/chance_wrong.sh $(BUILD)/chance_wrong examples

$(BUILD)/chance_wrong: tests/chance_wrong.c examples/chance.c include/mulgreddi.h $(LIB)
	$(CC) $(CFLAGS) -Iinclude -o $@ $< $(LIB)

# each example is run on the rule files beside it, and its output is compared
examples: $(EXAMPLES)
	for e in $(EXAMPLES); do $$e examples > $$e.out && diff examples/$$(basename $$e).expected $$e.out || exit 1; done

# the command line: its transcripts and README's session, the second program's answers to the same commands, rules and event tables shown as
# text and written again (those of the repository and random ones), listings beside the listing program's, what is left of files where
# something fails, a text for each refusal, the stack that calls need, an installation, and what it does to the places that it is given
SECOND_TOOL := $(BUILD)/cargo/release/answers
TRANSCRIPTS := $(wildcard tests/tool/*.txt)
# usage.txt and streams.txt are about the command line alone: options and help, descriptors, devices and what is left of files; chance.txt is
# about mulgreddi-chance
OWN := tests/tool/usage.txt tests/tool/streams.txt tests/tool/chance.txt
check-tool: $(TOOL) $(SHARED) $(PROGRAM) $(BUILD)/stack $(BUILD)/spelling $(BUILD)/shared $(BUILD)/random_rules $(BUILD)/faults
	tests/tool/run.sh $(TOOL) examples $(BUILD)/transcripts $(TRANSCRIPTS)
	awk '/^<!-- session/ { on = 1 } /^<!-- end/ { on = 0 } on && sub(/^    /, "")' README.md > $(BUILD)/README.txt
	mkdir -p $(BUILD)/new-folder
	tests/tool/run.sh $(TOOL) $(BUILD)/new-folder $(BUILD)/transcripts $(BUILD)/README.txt
	$(CARGO) build --release --offline --quiet --manifest-path second/Cargo.toml --bin answers
	tests/tool/run.sh --answers $(SECOND_TOOL) examples $(BUILD)/transcripts-second $(filter-out $(OWN),$(TRANSCRIPTS))
	rm -rf $(BUILD)/random
	mkdir -p $(BUILD)/random
	$(BUILD)/random_rules $(BUILD)/random 200
	tests/round_trip.sh $(TOOL) $(TOOL) $(RULES) $(BUILD)/random/*.rule
	tests/round_trip.sh $(TOOL) $(SECOND_TOOL) $(RULES) $(BUILD)/random/1[0-4]?.rule
	tests/round_trip.sh $(SECOND_TOOL) $(TOOL) $(RULES) $(BUILD)/random/1[5-9]?.rule
	tests/listings.sh $(TOOL) $(PROGRAM) $(wildcard examples/*.rule) compare/data/room_m512.rule compare/data/room_t4096.rule
	tests/synopsis.sh $(TOOL) docs/mulgreddi.1
	tests/completion.sh $(TOOL) tools/completion.bash
	rm -rf $(BUILD)/small
	mkdir -p $(BUILD)/small
	$(BUILD)/random_rules $(BUILD)/small 30 4 2
	tests/combine.sh $(TOOL) $(SECOND_TOOL) $(BUILD)/small
	tests/files.sh $(TOOL) examples $(BUILD)/faults
	$(BUILD)/spelling
	tests/refusals.sh include/mulgreddi.h
	tests/rules.sh $(TOOL) $(BUILD)/chance docs examples
	tests/rules.sh $(SECOND_TOOL) $(BUILD)/chance docs examples
	nm $(LIB) > $(BUILD)/symbols
	if grep -E ' [bBcCdDsS] ' $(BUILD)/symbols; then echo 'the library keeps state between calls'; exit 1; fi
	if grep -E ' U ' $(BUILD)/symbols | grep -vE ' U (memcpy|memset)$$'; then echo 'the library needs another name from outside'; exit 1; fi
	$(BUILD)/stack $(wildcard examples/[A-Z].rule) bench/and_71_s16.rule bench/cap_62_s16.rule bench/one_62_s1.rule bench/strict_1.rule
	tests/shared.sh $(BUILD)/shared $(SHARED) $(SONAME) $(BUILD)/symbols include/mulgreddi.h
	MAKE='$(MAKE)' tests/install.sh $(BUILD)/installed $(VERSION) $(SONAME)
	MAKE='$(MAKE)' tests/places.sh

$(BUILD)/spelling: tests/spelling.c tools/spelling.c tools/tool.h include/mulgreddi.h $(LIB)
	$(CC) $(CFLAGS) -Iinclude -Itools -o $@ tests/spelling.c tools/spelling.c $(LIB)

$(BUILD)/shared: tests/shared.c include/mulgreddi.h
	@mkdir -p $(BUILD)
	$(CC) $(CFLAGS) -Iinclude -o $@ $< -ldl

$(BUILD)/faults: tests/faults.c
	@mkdir -p $(BUILD)
	$(CC) $(CFLAGS) -shared -fPIC -o $@ $< -ldl

$(BUILD)/stack: tests/stack.c include/mulgreddi.h $(LIB)
	$(CC) $(CFLAGS) -pthread -Iinclude -o $@ $< $(LIB)

$(BUILD)/random_rules: tests/random_rules.c include/mulgreddi.h $(LIB)
	$(CC) $(CFLAGS) -Iinclude -o $@ $< $(LIB)

# what needs nothing proved, so that a fault there is told in seconds: must-fail edits that still apply, the two pages that are written by scripts
# (docs/EDITS.md, crates/README.md), what the documents name and count, proofs that count no steps, a text for each refusal, the second program's
# own tests. `rt ci` refuses files that are not laid out.
quick:
	tools/edits.sh check
	tools/edits.sh table | diff docs/EDITS.md -
	tools/crates.sh | diff crates/README.md -
	tests/documents.sh
	tests/proof_paths.sh
	tests/refusals.sh include/mulgreddi.h
	$(MAKE) second

# `rt ci` proves every crate, tries every must-fail edit and runs the programs; it is shown as it goes and kept in build/log/ci.
# The library and the programs are then made from what it leaves beside the crates.
prove-all:
	@mkdir -p $(BUILD)/log
	rt ci 2>&1 | tee $(BUILD)/log/ci
	@tools/edits.sh refused $(BUILD)/log/ci
	@rm -f $(LIB) $(PROGRAM)

# The closing line of `rt ci` is printed once more at the very end, where every step has passed: a failure before it leaves make's own line.
test:
	$(MAKE) quick
	$(MAKE) prove-all
	$(MAKE) lib $(PROGRAM)
	$(MAKE) --jobs=2 --output-sync=target BESIDE=1 compare listings tables examples chances check-tool
	@tail -n 1 $(BUILD)/log/ci | grep -x '[0-9]* passed, 0 failed'

clean:
	rm -rf $(BUILD) crates/*/out
