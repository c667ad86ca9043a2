# make         the library, the command, the header check, the C test programs
# make test    the gate, .ci/run: all proofs, then every test
# make tests   every test, on what is proved already; test-NAME is one of them (TESTS below)
# make soak, make mutants, make fuzz, make bench, make bench-placed, make bench-instructions, make controls, make broken  what takes longer; see the end of this file
# make install, make uninstall   the library, the command and their pages; see install.mk
# make test-page   pages of plans in a browser, beside the gate
# make clean   removes all that is built
#
# The archive, the programs and the C tests stand under target/; the measuring program under build/, what cargo builds under the target/
# of its own folder, and what rt keeps of a crate in crates/NAME/out. rt ci builds no archive and leaves target/ as it is.

CC = gcc
CXX = g++
CFLAGS = -std=c99 -O2 -g -Wall -Wextra -Werror -pedantic
CXXFLAGS = -std=c++11 -O2 -g -Wall -Wextra -Werror -pedantic
SANITIZE = -fsanitize=address,undefined -fno-sanitize-recover=all -fno-omit-frame-pointer
VALGRIND = valgrind --quiet --error-exitcode=99 --leak-check=full

LIB = target/staticlib/libtampermauve.a
# what rt printed when it built the archive, and the archive's checksum
LIB_LOG = $(LIB:.a=.log)
HEADER = include/tampermauve.h
OUT = target/c

# a C test program NAME is tests/NAME.c; it is run as it is, with sanitizers, and under valgrind
C_TESTS = check run run_all
C_PROGRAMS = $(C_TESTS:%=$(OUT)/%) $(C_TESTS:%=$(OUT)/%.sanitized)

# Rattle programs, which `rt run` proves and builds
RT_PROGRAMS = listing vectors

PROVED = crates.txt $(shell find $(wildcard crates/*/src crates/*/specs crates/*/proofs) -name '*.rt' -o -name '*.antt')

# make's flags are handed on to nobody: cargo would look for make's job server, and warn that it is not handed one, and tests/install.sh
# calls make with what it needs.
unexport MAKEFLAGS MFLAGS

# The tests of the gate. What each must print there is in .ci/said.
TESTS = test-promises test-conventions test-archive test-c test-listings test-simulator test-differential test-twin test-hold test-text test-command test-install test-fuzz test-vectors

.PHONY: all
all: lib command header programs

.PHONY: lib
lib: $(LIB)

.PHONY: header
header: $(OUT)/header.c.o $(OUT)/header.cc.o

.PHONY: programs
programs: $(C_PROGRAMS) $(OUT)/stack $(OUT)/readme $(RT_PROGRAMS:%=target/bin/%)

.PHONY: test
test:
	.ci/run

.PHONY: tests
tests: $(TESTS)

.PHONY: clean
clean:
	rm -rf target build out crates/*/out simulator/target tests/differential/target tests/fuzz/reference/target

# ---- the library: `rt lib` proves the crate and those below it, and writes the archive of their code, for any x86-64 processor

$(LIB): $(PROVED) toolchain.txt
	.ci/toolchain
	mkdir -p $(dir $@)
	rm -f crates/tampermauve_c/out/libtampermauve_c.a
	(cd crates/tampermauve_c && rt lib --cpu x86-64) > $(LIB_LOG) 2>&1 || { cat $(LIB_LOG); false; }
	cat $(LIB_LOG)
	cp crates/tampermauve_c/out/libtampermauve_c.a $@
	sha256sum < $@ >> $(LIB_LOG)

# its symbols, and what its proof relies on
.PHONY: test-archive
test-archive: $(LIB)
	tests/archive.sh $(LIB) $(LIB_LOG)

# ---- the command, plainly and with sanitizers

COMMAND = target/bin/tampermauve
COMMAND_SOURCES = $(wildcard command/*.c)
COMMAND_NEEDS = $(COMMAND_SOURCES) $(wildcard command/*.h) $(HEADER) $(LIB)

.PHONY: command
command: $(COMMAND)

$(COMMAND): $(COMMAND_NEEDS)
	mkdir -p $(dir $@)
	$(CC) $(CFLAGS) -Iinclude -Icommand $(COMMAND_SOURCES) $(LIB) -o $@

$(OUT)/tampermauve.sanitized: $(COMMAND_NEEDS) | $(OUT)
	$(CC) $(CFLAGS) $(SANITIZE) -Iinclude -Icommand $(COMMAND_SOURCES) $(LIB) -o $@

# ---- Rattle programs. `rt run` proves one, builds it and runs it there, on an empty input; how it ends says nothing here. One that is not
# proved is not built.

target/bin/%: $(PROVED) toolchain.txt
	.ci/toolchain
	mkdir -p $(dir $@)
	rm -f crates/$*/out/$*
	cd crates/$* && { rt run < /dev/null > /dev/null || [ -x out/$* ]; }
	cp crates/$*/out/$* $@

# ---- the header, alone, as C99 and as C++

$(OUT)/header.c.o: $(HEADER) | $(OUT)
	$(CC) $(CFLAGS) -x c -c $< -o $@

$(OUT)/header.cc.o: $(HEADER) | $(OUT)
	$(CXX) $(CXXFLAGS) -x c++ -c $< -o $@

.PHONY: test-header
test-header: header
	@echo "header: compiled as C99 and as C++"

# ---- C programs

$(OUT):
	mkdir -p $@

$(OUT)/%: tests/%.c $(wildcard tests/*.h) $(HEADER) $(LIB) | $(OUT)
	$(CC) $(CFLAGS) -Iinclude -Itests $< $(LIB) -o $@

$(OUT)/%.sanitized: tests/%.c $(wildcard tests/*.h) $(HEADER) $(LIB) | $(OUT)
	$(CC) $(CFLAGS) $(SANITIZE) -Iinclude -Itests $< $(LIB) -o $@

.PHONY: test-c $(C_TESTS:%=test-c-%)
test-c: test-header $(C_TESTS:%=test-c-%) test-stack test-readme

$(C_TESTS:%=test-c-%): test-c-%: $(OUT)/% $(OUT)/%.sanitized
	$(OUT)/$*
	$(OUT)/$*.sanitized
	@if command -v valgrind >/dev/null 2>&1; then \
	    echo $(VALGRIND) $(OUT)/$*; $(VALGRIND) $(OUT)/$*; \
	else \
	    echo "valgrind is not installed: $* is not run under it"; \
	fi

# ---- how much stack the calls use, beside what the header says

$(OUT)/stack: tests/stack.c $(wildcard tests/*.h) $(HEADER) $(LIB) | $(OUT)
	$(CC) $(CFLAGS) -Iinclude -Itests $< $(LIB) -pthread -o $@

.PHONY: test-stack
test-stack: $(OUT)/stack
	$(OUT)/stack

# ---- the program and the plan in README.md, as they are printed there, and what README.md says that they print

# the first block of a text that is marked with a word
block = awk '/^```$(1)$$/ { on = 1; next } /^```$$/ { if (on) exit } on'

$(OUT)/readme.c: README.md | $(OUT)
	$(call block,c) $< > $@

$(OUT)/readme.expected: README.md | $(OUT)
	$(call block,text) $< > $@

$(OUT)/readme.steps: README.md | $(OUT)
	$(call block,steps) $< > $@

$(OUT)/readme.run: README.md | $(OUT)
	$(call block,run) $< > $@

$(OUT)/readme: $(OUT)/readme.c $(HEADER) $(LIB)
	$(CC) $(CFLAGS) -Iinclude $< $(LIB) -o $@

.PHONY: test-readme
test-readme: $(OUT)/readme $(OUT)/readme.expected $(OUT)/readme.steps $(OUT)/readme.run $(COMMAND)
	$(OUT)/readme > $(OUT)/readme.printed
	diff $(OUT)/readme.expected $(OUT)/readme.printed
	$(COMMAND) assemble $(OUT)/readme.steps -o $(OUT)/readme.plan
	$(COMMAND) run $(OUT)/readme.plan | diff $(OUT)/readme.run -
	$(COMMAND) run $(OUT)/readme.plan --seed 5 | diff $(OUT)/readme.run -
	@echo "readme: its program and its plan print what README.md says"

# ---- what docs/PROMISES.md names, and the listings of the plans in plans/

.PHONY: test-promises
test-promises:
	tests/promises.sh

.PHONY: test-conventions
test-conventions:
	tests/conventions.sh

.PHONY: test-listings
test-listings: target/bin/listing $(COMMAND)
	tests/listings.sh $^

# ---- the simulator, and what is held against it: Rust with its standard library alone

SEED = 1
COUNT = 250000
TWIN_COUNT = 25000
SECONDS = 600

.PHONY: test-simulator
test-simulator:
	cd simulator && cargo test --release --offline --quiet

.PHONY: test-differential
test-differential: $(LIB)
	tests/differential.sh library --seed $(SEED) --count $(COUNT)

# the C twin that the library is measured against is a correct peer
.PHONY: test-twin
test-twin:
	tests/differential.sh twin --seed $(SEED) --count $(TWIN_COUNT)

# the listing program and the command's listing beside the simulator's, on random plans
.PHONY: test-hold
test-hold: target/bin/listing $(OUT)/list
	cd simulator && cargo build --release --offline --quiet
	simulator/target/release/hold target/bin/listing --count 1000
	simulator/target/release/hold $(OUT)/list --count 1000

# the command as a listing program, for which a refused plan is no failure
$(OUT)/list: $(COMMAND) | $(OUT)
	printf '#!/bin/sh\n$(COMMAND) list - 2>/dev/null\n[ $$? -lt 2 ]\n' > $@
	chmod +x $@

# ---- plans as text: the command's parts for both directions, on every statement and error, on stored, random and damaged plans

TEXT_SOURCES = $(addprefix command/,assemble.c disassemble.c parse.c scan.c names.c records.c refusals.c bytes.c)
TEXT_NEEDS = tests/text.c $(TEXT_SOURCES) $(wildcard tests/*.h command/*.h) $(HEADER) $(LIB)
TEXT_PLANS = $(wildcard plans/*.plan) crates/vectors/data/plans.data

$(OUT)/text: $(TEXT_NEEDS) | $(OUT)
	$(CC) $(CFLAGS) -Iinclude -Itests -Icommand tests/text.c $(TEXT_SOURCES) $(LIB) -o $@

$(OUT)/text.sanitized: $(TEXT_NEEDS) | $(OUT)
	$(CC) $(CFLAGS) $(SANITIZE) -Iinclude -Itests -Icommand tests/text.c $(TEXT_SOURCES) $(LIB) -o $@

.PHONY: test-text
test-text: $(OUT)/text $(OUT)/text.sanitized
	$(OUT)/text 1000 $(TEXT_PLANS)
	$(OUT)/text.sanitized 1000 $(TEXT_PLANS)
	@if command -v valgrind >/dev/null 2>&1; then \
	    echo $(VALGRIND) $(OUT)/text 50; $(VALGRIND) $(OUT)/text 50 $(TEXT_PLANS); \
	else \
	    echo "valgrind is not installed: text is not run under it"; \
	fi

# ---- the command: its words and files, and its pages in a browser

.PHONY: test-command
test-command: $(COMMAND) $(OUT)/tampermauve.sanitized target/bin/listing
	tests/command.sh $(COMMAND) $(OUT)/tampermauve.sanitized

.PHONY: test-page
test-page: $(COMMAND)
	tests/page.sh $<

.PHONY: test-fuzz
test-fuzz: $(LIB)
	tests/fuzz.sh replay

# the stored plans: what is stored is the simulator's, and the program vectors prints it from them and from no others
.PHONY: test-vectors
test-vectors: target/bin/vectors
	tests/vectors.sh check
	tests/vectors.sh bites $<

# for as long as SECONDS says, with a seed that SEED names
.PHONY: soak
soak: $(LIB)
	tests/differential.sh library --seed $(SEED) --seconds $(SECONDS)

# each fault of tests/differential/mutants must be caught
.PHONY: mutants
mutants:
	tests/mutants.sh

# the rewrite beside each must-fail edit that changes nothing must be accepted
.PHONY: controls
controls:
	tests/controls.sh

# each test fails where what it looks at is broken, and the gate where it was once fooled
.PHONY: broken
broken: all
	tests/broken.sh

# needs clang with libFuzzer
.PHONY: fuzz
fuzz: $(LIB)
	tests/fuzz.sh run $(SECONDS)
	tests/fuzz.sh run $(SECONDS) texts

# the library beside the C twin, in one run
build/bench: $(wildcard bench/*.c bench/*.h) $(LIB)
	mkdir -p build
	$(CC) -std=c99 -O3 -Wall -Wextra -Werror -pedantic -c bench/twin.c -o build/twin.o
	$(CC) -std=c99 -O3 -Wall -Wextra -Werror -pedantic -Iinclude bench/bench.c bench/sets.c build/twin.o $(LIB) -lm -o $@

.PHONY: bench
bench: build/bench
	build/bench --passes 25 --csv build/bench.csv --svg build/bench.svg

.PHONY: bench-instructions
bench-instructions: build/bench
	bench/instructions.sh build/bench build/instructions.csv

# the same times with the code put elsewhere, four times
.PHONY: bench-placed
bench-placed: $(LIB)
	mkdir -p build
	bench/placed.sh $(LIB) 25 build/placed.csv build/placed.svg

# ---- make install, make uninstall and test-install

include install.mk
