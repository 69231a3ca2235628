# make run FILE=..  the program `chain` on a file of element blocks: examples/two-steps.bin unless another is named
# make test         everything; the last line is rt's verdict
# make lib          the static library and its header, in target/lib; TARGET=.. for another processor (targets.mk lists them), in
#                   target/lib/TARGET
# make install      header, archive and pkg-config file, in PREFIX=.., /usr/local unless another is named; TARGET=.. as above
# make try          the programs before any proof is checked, on the interpreter and compiled with checks; TRIES=.. times on requests drawn at
#                   random, beside the Rust
# make compare      every call, the C entries, the square root and the words of eight bytes beside Rust, on fresh random requests: SEED=..;
#                   for the calls COUNT=.. or SECONDS=.., the entries get two million, the root one, the words 2^20 and 2^17 of each of
#                   seven kinds; and `compare-turns`, a million requests with turns from 1/16 to 3 rad: each value within 2^-24 of the Rust source
#                   over the machine's sines and atan2; APEX_SRC=.. names the folder of the Rust source
#                   (sgal3.rs and its neighbours), if it is not the one in ../shared
# make compare-small-turns  how far they are with smaller turns, on COUNT=.. requests: a table, no test
# make bench        times: the square root beside the machine's, sine, cosine and half-angle beside libm's, and the calls beside the Rust source
#                   and plain Rust
# make bench-turns  times: the C entries at 1e-6 beside those of another archive, OLD=.., by turns in one process
# make stack        how many bytes of stack the C entries take, and those that are there for timing alone
# make edits        the wrong programs that the prover has to refuse, with what each stands for; after `make test` also with what refused it
# make calls        the calls, each with its number, its blocks, its answer and the numbers that it can be refused with
# make vectors      the stored vectors of the square root anew
# make sample       the stored requests of the program `conformance` and the reference's answers anew
# make cases        the stored inputs of the programs `chain` and `chain_cases`, and what they have to print, anew
FILE = examples/two-steps.bin
export FILE
PREFIX = /usr/local
OLD =
SEED = 1
COUNT = 10000000
SECONDS =
TRIES = 6
SHELL = /bin/bash
# Without the flags of make: cargo would look for a job server that is not handed on to it.
CARGO = env -u MAKEFLAGS -u MFLAGS cargo --quiet --offline
FLOAT = --target-dir target/cargo --manifest-path rust/float/Cargo.toml
VECTORS = crates/sqrt_vectors/data/vectors
CASES = $(CARGO) run --release --target-dir target/cargo --manifest-path rust/cases/Cargo.toml --
SAMPLE = crates/conformance/stdin crates/conformance/stdout
REFERENCE = --release --target-dir target/cargo --manifest-path rust/reference/Cargo.toml
APEX_SRC ?= ../shared/docs/src/crates/apex-manifolds/src
export APEX_SRC := $(abspath $(APEX_SRC))
WARNINGS = -Wall -Wextra -Werror -pedantic

# rt ci leaves what it has proved in the crates' out/: the programs, and the libraries, if none lay there before. PROVED says which of them are
# those of this very run, so that nothing is proved twice.
PROVED =

# A part that wants a tool which is missing says so, and fails in CI.
WITHOUT = { echo "NOT RUN: $@: there is no $(1) here"; [ "$$CI" != true ]; }
# Of what rt prints the crates that it proves are shown, and all of it where it fails.
SHOWN = mkdir -p target && set -o pipefail && { $(1) 2>&1 | tee target/$@.log | \
	sed -u -n 's/^rt: chose --jobs [0-9]* for \(.*\)$$/proving \1/p'; } || { cat target/$@.log; exit 1; }
# What is printed is shown only where it fails.
QUIETLY = mkdir -p target && $(1) > target/$@.log 2>&1 || { cat target/$@.log; exit 1; }

# What cargo is needed for: rustc links with cc.
WITH_CARGO = if ! command -v cargo > /dev/null; then $(call WITHOUT,cargo); \
	elif ! command -v cc > /dev/null; then $(call WITHOUT,cc for rustc to link with); else $(1); fi
# What is needed to run the Rust source itself.
WITH_SOURCE = if ! [ -d "$$APEX_SRC" ]; then $(call WITHOUT,Rust source (APEX_SRC names its folder)); else $(call WITH_CARGO,$(1)); fi

# Two parts at a time where both are only to pass or fail, and one after the other where times are measured.
TWO_AT_A_TIME = $(MAKE) --no-print-directory -j2 --output-sync=target IN_ORDER=

.PHONY: run test test-tools test-sources test-built try try-requests toolchain-check readme-check edits-check test-rust test-c test-install install install-files \
	vectors-check cases-check sample-check test-reference compare compare-sqrt compare-words compare-calls compare-turns compare-small-turns \
	compare-entries valgrind-words valgrind-entries conformance bench bench-float bench-handset bench-turns stack sgal3-lib edits calls vectors cases sample \
	float-lib words-lib
IN_ORDER = yes
ifdef IN_ORDER
.NOTPARALLEL:
endif

# A status other than 0 where nothing was printed or the chain is refused: the program itself has no status to give.
run: toolchain-check
	@[ -f "$$FILE" ] || { echo "make run: there is no file '$$FILE'; FILE=.. names a file of element blocks of 88 bytes."; exit 1; }
	@[ -x crates/chain/out/chain ] || echo "Proving the program chain and what it rests on, crate by crate: some minutes the first time."
	@$(call SHOWN,env -C crates/chain rt run < /dev/null)
	@said=$$(crates/chain/out/chain < "$$FILE"); printf '%s\n' "$$said"; case $$said in '' | refused*) exit 1 ;; esac

# What wants a program or a library that is proved comes after rt ci: so each is proved once, in this very run. A must-fail edit that can't be
# applied or read says nothing of a contract, so it fails too. The verdict is printed again as the last line, if the rest passes too.
test: toolchain-check test-tools
	@$(TWO_AT_A_TIME) test-sources
	@mkdir -p target && set -o pipefail && libraries=libraries; \
	for folder in .git/rt-aside crates/*/out/rlib; do [ ! -e "$$folder" ] || libraries=; done; \
	rt ci | tee target/rt-ci.log && \
	if grep -q '^rt: ok.*, [0-9]* bad' target/rt-ci.log; then echo "FAILED: bad must-fail edits, as told above"; exit 1; fi && \
	$(TWO_AT_A_TIME) test-built COUNT=5000000 PROVED="programs $$libraries" && tail -n 1 target/rt-ci.log

test-sources: readme-check edits-check try vectors-check cases-check sample-check test-reference
test-built: valgrind-words valgrind-entries compare test-rust test-c test-install test-targets

# Root installs what the tests want and is missing, in CI or with INSTALL=yes.
APT = DEBIAN_FRONTEND=noninteractive apt-get install -y --no-install-recommends g++ valgrind pkg-config
test-tools:
	@missing=$$(for tool in g++ valgrind pkg-config; do command -v $$tool > /dev/null || echo $$tool; done); \
	if [ -n "$$missing" ] && [ "$$(id -u)" = 0 ] && [ "$$CI" = true -o "$(INSTALL)" = yes ]; then mkdir -p target && \
	    { $(APT) || { apt-get update && $(APT); }; } > target/$@.log 2>&1 || cat target/$@.log; fi

# The definitions that the proofs rest on are the toolchain's: another one is another claim.
toolchain-check:
	@command -v rt > /dev/null || { echo "There is no rt in PATH: this needs the Rattle toolchain that the file 'toolchain' names (README.md)."; exit 1; }
	@have=$$(rt version) && want=$$(cat toolchain) && [ "$$have" = "$$want" ] || { \
	    echo "The file 'toolchain' names '$$want', and rt version says '$$have': use that one, or run make test with this one and name it there."; \
	    exit 1; }

include targets.mk

test-rust: lib
	@$(call WITH_CARGO,$(CARGO) test --target-dir target/cargo --manifest-path rust/handset/Cargo.toml)

# The library needs no other, not even C's own.
test-c: lib
	@if command -v gcc > /dev/null; then \
	    gcc -std=c99 $(WARNINGS) -Itarget/lib c/handset_test.c target/lib/libhandset.a -o target/handset_test && \
	    target/handset_test; \
	else $(call WITHOUT,gcc); fi
	@if command -v gcc > /dev/null && command -v valgrind > /dev/null; then \
	    valgrind --quiet --leak-check=full --error-exitcode=1 target/handset_test; \
	else $(call WITHOUT,valgrind); fi
	@if command -v g++ > /dev/null; then \
	    g++ -std=c++98 $(WARNINGS) -fsyntax-only -x c++ target/lib/handset.h; \
	else $(call WITHOUT,g++); fi
	@if command -v gcc > /dev/null; then \
	    gcc -std=c99 $(WARNINGS) -Itarget/lib examples/first_step.c target/lib/libhandset.a -o target/first_step && \
	    target/first_step | cmp - examples/first_step.out; \
	else $(call WITHOUT,gcc); fi

# The README shows the example as it stands.
readme-check:
	@awk '/^    .. Composes two steps/ { on = 1 } on && /^[^ ]/ { exit } on { print substr($$0, 5) }' README.md | sed '$$d' | \
	    cmp - examples/first_step.c

# What is installed compiles and links by what pkg-config says of it.
test-install: lib
	@rm -rf target/install && $(MAKE) --no-print-directory install-files PREFIX=$(CURDIR)/target/install
	@if command -v gcc > /dev/null && command -v pkg-config > /dev/null; then \
	    gcc -std=c99 $(WARNINGS) examples/first_step.c -o target/first_step_installed \
	        $$(PKG_CONFIG_PATH=target/install/lib/pkgconfig pkg-config --cflags --libs handset) && \
	    target/first_step_installed | cmp - examples/first_step.out; \
	else $(call WITHOUT,pkg-config); fi

VERSION = $(shell sed -n 's/^.define HANDSET_VERSION 0x\(..\)\(..\)\(..\)$$/echo $$((16\#\1)).$$((16\#\2)).$$((16\#\3))/p' include/handset.h | bash)
install: lib
	@$(MAKE) --no-print-directory install-files
install-files:
	@install -d "$(DESTDIR)$(PREFIX)/include" "$(DESTDIR)$(PREFIX)/lib/pkgconfig"
	@install -m 644 $(LIB_FOLDER)/handset.h "$(DESTDIR)$(PREFIX)/include/"
	@install -m 644 $(LIB_FOLDER)/libhandset.a "$(DESTDIR)$(PREFIX)/lib/"
	@printf '%s\n' 'prefix=$(PREFIX)' 'Name: handset' 'Description: Galilean motion steps on byte blocks' 'Version: $(VERSION)' \
	    'Cflags: -I$${prefix}/include' 'Libs: -L$${prefix}/lib -lhandset' > "$(DESTDIR)$(PREFIX)/lib/pkgconfig/handset.pc"

# Each wrong program says what it stands for.
edits-check:
	@$(call QUIETLY,tools/edits)

vectors-check:
	@$(call WITH_CARGO,mkdir -p target && $(CARGO) run --release $(FLOAT) --bin sqrt_vectors > target/vectors && \
	    cmp target/vectors $(VECTORS))

# Neither the sources nor the proofs of the two programs are the generator's.
cases-check:
	@$(call WITH_CARGO,rm -rf target/cases && $(CASES) target/cases && \
	    diff -r -x src -x proofs -x out target/cases/chain crates/chain && \
	    diff -r -x src -x proofs -x out target/cases/chain_cases crates/chain_cases)

sample-check:
	@$(call WITH_SOURCE,mkdir -p target && $(CARGO) run $(REFERENCE) --bin sample -- target/sample-requests target/sample-answers \
	    > target/sample-counts && cmp target/sample-requests $(word 1,$(SAMPLE)) && cmp target/sample-answers $(word 2,$(SAMPLE)))

# The Rust source answers the bench list, and the reading of the refusals agrees with it.
test-reference:
	@$(call WITH_SOURCE,$(CARGO) test $(REFERENCE) --workspace --exclude entries)

# A mistake in the code shows here before any proof is checked. The interpreter reads no arguments, and ends a run after 20 million steps: 800
# requests stay well below.
TRIED_PROGRAMS = $(addprefix try-,chain chain_cases bench_lines sqrt_vectors)
.PHONY: $(TRIED_PROGRAMS)
try: try-requests $(TRIED_PROGRAMS)

TRIED = $(CURDIR)/target/try
$(TRIED_PROGRAMS): try-%:
	@mkdir -p $(TRIED) && cd crates/$* && rt try $$([ ! -d data ] || ls data | sed 's/.*/--data &=data\/&/') -- $$(cat args 2> /dev/null) \
	    < $$(ls stdin 2> /dev/null || echo /dev/null) > $(TRIED)/$* 2> $(TRIED)/$*.log && cmp $(TRIED)/$* stdout && \
	    echo "$*: $$(tail -n 1 $(TRIED)/$*.log)" || { cat $(TRIED)/$*.log; exit 1; }

try-requests:
	@$(call WITH_SOURCE,rm -rf $(TRIED)/requests && mkdir -p $(TRIED)/requests && \
	    for seed in $$(seq $(SEED) $$(($(SEED) + $(TRIES) - 1))); do \
	        $(CARGO) run $(REFERENCE) --bin draw -- $(TRIED)/requests/$$seed $(TRIED)/requests/$$seed.stdout $$seed 800 || exit 1; done && \
	    echo "conformance: 800 requests for each of the seeds" && cd crates/conformance && rt try --cases $(TRIED)/requests)

float-lib: toolchain-check
	@$(call STATIC_LIBRARY,float_export)

conformance: toolchain-check
	@$(if $(filter programs,$(PROVED)),,$(call SHOWN,env -C crates/conformance rt run < /dev/null))

words-lib: toolchain-check
	@$(call STATIC_LIBRARY,words_export)

compare: compare-sqrt compare-words compare-entries compare-calls compare-turns

compare-sqrt: float-lib
	@$(call WITH_CARGO,$(CARGO) run --release $(FLOAT) --bin sqrt_compare -- --seed $(SEED) --count 1000000)

compare-words: words-lib
	@$(call WITH_CARGO,$(CARGO) run --release $(FLOAT) --bin words_compare -- --seed $(SEED) --count 1048576)

compare-calls: conformance
	@$(call WITH_SOURCE,$(CARGO) run $(REFERENCE) --bin compare -- crates/conformance/out/conformance --seed $(SEED) \
	    $(if $(SECONDS),--seconds $(SECONDS),--count $(COUNT)))

compare-turns: conformance
	@$(call WITH_SOURCE,$(CARGO) run $(REFERENCE) --bin agree -- crates/conformance/out/conformance --seed $(SEED) --count 1000000)

compare-small-turns: conformance
	@$(call WITH_SOURCE,$(CARGO) run $(REFERENCE) --bin agree -- crates/conformance/out/conformance --seed $(SEED) --count $(COUNT) --small)

compare-entries: lib
	@$(call WITH_SOURCE,$(CARGO) run $(REFERENCE) --bin entries -- --seed $(SEED) --count 2000000)

# That no byte beside a buffer is touched, here and in the next.
valgrind-words: words-lib
	@if ! command -v valgrind > /dev/null; then $(call WITHOUT,valgrind); else \
	    $(call WITH_CARGO,$(CARGO) build --release $(FLOAT) --bin words_compare && \
	    valgrind --quiet --leak-check=full --error-exitcode=1 target/cargo/release/words_compare --seed $(SEED) --count 5000); fi

valgrind-entries: lib
	@if ! command -v valgrind > /dev/null; then $(call WITHOUT,valgrind); else \
	    $(call WITH_SOURCE,$(CARGO) build $(REFERENCE) --bin entries && \
	    valgrind --quiet --leak-check=full --error-exitcode=1 target/cargo/release/entries --seed $(SEED) --count 20000); fi

bench: bench-float bench-handset

bench-float: float-lib
	@$(CARGO) run --release $(FLOAT) --bin float_bench

bench-handset: lib sgal3-lib
	@$(CARGO) run --release --target-dir target/cargo --manifest-path rust/bench/Cargo.toml

# Of two archives that are the same there is nothing to time.
bench-turns: lib
	@[ -f "$(OLD)" ] || { echo "make bench-turns: OLD=.. names another libhandset.a."; exit 1; }
	@if cmp -s "$(OLD)" target/lib/libhandset.a; then echo "The archives are the same, byte for byte."; else \
	    mkdir -p target && objcopy --prefix-symbols=old_ "$(OLD)" target/libold.a && \
	    gcc -std=gnu99 -O2 $(WARNINGS) -Itarget/lib c/bench_turns.c target/lib/libhandset.a target/libold.a -lm -o target/bench_turns && \
	    size target/libold.a target/lib/libhandset.a && target/bench_turns; fi

stack: lib sgal3-lib
	@tools/stack target/lib/libhandset.a $$(sed -n 's/^uint32_t \(sgal3_[a-z_]*\)(.*/\1/p' include/handset.h)
	@tools/stack target/staticlib/libsgal3_export.a sgal3_exp sgal3_log so3_log sgal3_adjoint sgal3_short_adjoint sgal3_act sgal3_act_event

sgal3-lib: toolchain-check
	@$(call STATIC_LIBRARY,sgal3_export)

edits:
	@tools/edits $(wildcard target/rt-ci.log)

calls:
	@$(CARGO) run $(REFERENCE) --package requests

vectors:
	@$(CARGO) run --release $(FLOAT) --bin sqrt_vectors > $(VECTORS)

sample:
	@$(CARGO) run $(REFERENCE) --bin sample -- $(SAMPLE)

cases:
	@$(CASES) crates
