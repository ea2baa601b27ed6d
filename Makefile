# Two commands for a fresh machine with the Rattle toolchain, gcc and cargo: make run, make test. The second also needs g++, pkg-config and python3.
# Beside them: make fuzz SECONDS=n, make bench, make bench-instructions (with valgrind), Makefile.vendor's make install and make examples, for the engine as C
# make portable, make portable-mutants, make platforms (with the compilers and emulators that portable/platforms.sh names), for the page that plans in a
# browser make web (with clang and lld) and make web-test (with the packages that tests/web/run.sh names), and for what is delivered
# make dist [GATE=LOG] [WEB=no] and make dist-check [DIST=DELIVERY].
.PHONY: run test promises calls proved engine hand fuzz bench bench-instructions portable portable-test portable-mutants platforms bench-portable web-test dist dist-check

SECONDS ?= 60
# The tests are of the archive that is named to them.
CARGO = BARRIER_LIB_DIR="$(CURDIR)/target/staticlib" cargo --quiet
HAND = $(CARGO) run --release --locked --manifest-path tests/Cargo.toml

# Document 01's printed example, through the program: proved, built, run.
run:
	@mkdir -p target
	@cd crates/barrier && rt run <stdin 2>"$(CURDIR)/target/run.log" || { cat "$(CURDIR)/target/run.log"; exit 1; }

# Everything. The toolchain's gate comes last: each crate proved, each must-fail edit refused, each program and each test of a crate run.
# Before it the log is told what was built and tested, which make dist reads there.
test: promises calls hand vendor-test portable-test
	@python3 -B delivery/gate.py
	@python3 -B tests/ci.py

# The index of promises, which the prover reads, has every theorem that docs/PROMISES.md names.
promises:
	python3 -B tests/promises.py

# The archive's calls are those of the library that the header and the C are compared with.
calls:
	python3 -B tests/calls.py

# The archive and the program, proved.
engine: target/staticlib/libbarrier_engine.a target/bin/barrier

# The crates that the engine is made of. What has not changed since it was proved here costs seconds.
proved:
	cd crates/barrier_engine && rt lib

# Whatever links the archive or installs it asks for this file, so the proofs and a fresh archive always come first. The toolchain calls it after its crate. It is
# made for every x86-64, as the program is; without CPU the toolchain takes a newer one.
CPU = x86-64
VENDOR_OWN_ARCHIVE = target/staticlib/libbarrier_engine.a
$(VENDOR_OWN_ARCHIVE): proved
	@mkdir -p $(@D)
	cd crates/barrier_engine_c && rt lib --cpu $(CPU)
	cp crates/barrier_engine_c/out/libbarrier_engine_c.a $@

# Here the program is always built, so its tests may not be left out.
BARRIER = target/bin/barrier
target/bin/barrier: proved
	@mkdir -p $(@D)
	cd crates/barrier && rt run --cpu $(CPU) <stdin >"$(CURDIR)/target/printed"
	cmp target/printed crates/barrier/stdout
	cp crates/barrier/out/barrier $@

# The implementation by another hand: its own tests, the test of the test, and the engine held against it.
hand: engine
	$(CARGO) test --locked --manifest-path tests/Cargo.toml
	$(HAND) -p differential
	$(HAND) -p program -- target/bin/barrier

# The engine as one file of C, from the proved MIR (portable/README.md).
portable: proved
	sh portable/make.sh portable/barrier_engine.c

portable-test: engine
	sh portable/test.sh

# The toolchain's own libraries and today's forms through the translator; wrong translators, each of which has to be found.
portable-mutants: proved
	python3 -B portable/tests/examples.py
	python3 -B portable/tests/forms.py
	python3 -B portable/tests/mutants.py

platforms: engine
	sh portable/platforms.sh

bench-portable: engine
	sh portable/bench.sh

# The page in real browsers; no part of the gate, which needs none.
web-test: web
	sh tests/web/run.sh

# target/dist/barrier_engine-VERSION and its tar.gz, from the last commit. The page is part of it, and is built here with clang and lld; where these are not,
# that is said before anything runs, and WEB=no delivers without the page. GATE names the log of a gate run of that commit (.ci/run >LOG); without it the gate
# runs first, and its log is kept as target/gate.log.
dist:
	@[ -z "$(GATE)" ] || [ -f "$(GATE)" ] || { echo "dist: there is no log $(GATE)" >&2; exit 1; }
	@[ "$(WEB)" = no ] || python3 -B web/build.py --tools || { echo "dist: or leave the page out, WEB=no" >&2; exit 1; }
	@python3 -B delivery/dist.py ready
	@if [ -z "$(GATE)" ]; then \
	    log=$$(mktemp) && echo "dist: the gate runs first; its log is $$log" && \
	    { MAKEFLAGS='' .ci/run >"$$log" 2>&1 || { tail -n 20 "$$log"; exit 1; }; } && mkdir -p target && mv "$$log" target/gate.log; \
	fi
	@$(MAKE) --no-print-directory engine
	@[ "$(WEB)" = no ] || $(MAKE) --no-print-directory web
	@python3 -B delivery/dist.py make "$(or $(GATE),target/gate.log)" $(if $(filter no,$(WEB)),--no-page)

# One command that compares: all is proved from nothing and built again, and held against CHANGELOG.md and, where DIST names a delivery (its folder or its tar.gz),
# against that. Without the toolchain, what can be compared without it.
dist-check:
	@if command -v rt >/dev/null; then \
	    rt all verdict && $(MAKE) --no-print-directory engine && \
	    sh portable/make.sh target/barrier_engine.c && python3 -B delivery/check.py --c target/barrier_engine.c $(if $(DIST),"$(DIST)"); \
	else \
	    python3 -B delivery/check.py $(if $(DIST),"$(DIST)"); \
	fi

fuzz: engine
	$(HAND) -p differential -- --seconds $(SECONDS)

bench: engine
	$(HAND) -p bench

bench-instructions: engine
	sh tests/instructions.sh

include Makefile.vendor

vendor-test: engine
