# What users, contributors and the gate run. `make` alone prints the list.
PREFIX ?= /usr/local
DESTDIR ?=
target = $(DESTDIR)$(PREFIX)

# What `make install` installs: `proved`, which needs the Rattle kit, or `plain`, the same sources as plain Rust, which needs cargo.
BUILT ?= $(if $(shell command -v rt),proved,plain)
workspace = out/rust
pages = packaging/pages.sh
crates_from = if command -v cargo > /dev/null; then $(MAKE) rust-sources; else echo 'no cargo, so no crate for Rust'; fi
ifeq ($(BUILT),plain)
built = out/rust/target/release
cudaplan = $(built)/cudaplan
programs_from = $(MAKE) rust
library_from = $(MAKE) rust
driver_from = :
else
cudaplan = crates/cudaplan/out/cudaplan
programs_from = .ci/built check programs || $(MAKE) build
library_from = $(MAKE) rust-sources && cd $(workspace) && cargo build --quiet --release -p capi
# zigrunk is plain Rust over the proved sources.
driver_from = if command -v cargo > /dev/null; then $(MAKE) rust-sources && cd $(workspace) && cargo build --quiet --release -p zigrunk-driver; else echo 'no cargo, so no zigrunk'; fi
endif
driver = $(workspace)/target/release/zigrunk-driver
archive = $(workspace)/target/release/libzigrunk_c.a

# $(call needs_kit,COMMANDS): ends a target that proves, if the Rattle kit isn't there: what to run instead.
needs_kit = $(if $(shell command -v rt),,$(error make $@ needs the Rattle kit, whose rt is not on PATH. Without it, run: $(1)))

.PHONY: help demo build lib header rust rust-sources crates vendor rust-install check install install-programs install-library install-rust uninstall dist bench drivers test-install check-docs lint one nightly test

help:
	@echo 'make demo             run cudaplan, unproved, on two calls; a minute from a fresh clone'
	@echo 'make build            prove and build crates/cudaplan/out/cudaplan'
	@echo 'make lib              build libzigrunk for C, C++, Go and Python: out/lib and out/include'
	@echo 'make header           write the header of libzigrunk anew; needs cbindgen'
	@echo 'make rust             write the proved sources as plain Rust and build programs and library of them: out/rust; needs cargo, and crates'
	@echo 'make vendor           fill vendor/ with these crates, from Debian 13 by apt-get; installs nothing'
	@echo 'make install          install programs, library, scripts, man pages and completions; PREFIX=/usr/local, DESTDIR='
	@echo '                      it proves and builds both, or without the kit builds the plain Rust: BUILT=proved, BUILT=plain'
	@echo '                      make install-programs and make install-library install, and build, one of them'
	@echo 'make rust-install     the same with the plain Rust'
	@echo 'make uninstall        remove what make install installed, with the same PREFIX and DESTDIR'
	@echo 'make check CRATE=dry_runs   prove one crate over kept libraries, or with FUNCTION=PATH one function of it; no verdict'
	@echo 'make test             with the kit the whole gate, rt ci in it: BODIES=all tries all wrong bodies, ANEW=1 takes no proof from an earlier'
	@echo '                      run on this machine. Without the kit the tests of the plain build. The last line is N passed, M failed'
	@echo 'make nightly          run what the gate leaves out, hours of it, and note in tests/passed.txt what passes. tests/run lists all parts; make NAME,'
	@echo '                      as make field or make random-calls SEED=7 COUNT=100, runs one of these'
	@echo 'make one CASE=TEXT    run the cases of the shell scripts and the unit tests of the driver whose names have this text'
	@echo 'make drivers          compile the test drivers, unproved, and run their cases, or those of NAMES="test_lines"'
	@echo 'make check-docs       check links, quoted code and names in the pages, and the version number'
	@echo 'make lint             check shell, Python and Rust: shellcheck, mypy, flake8, clippy and rustfmt, as far as they are installed'
	@echo 'make test-install     install into an empty directory, run the programs from there, uninstall'
	@echo 'make dist             pack the sources as plain Rust, Debian packages of them, and the proved programs if built; in dist/'
	@echo 'make bench            time calls of the library'

# A cicc line that is read and written back, and the plan of two real dry runs: the calls in demo/.
DRY_RUNS = tests/drivers/test_plans/data/dry_runs
ifeq ($(BUILT),plain)
demo: rust
	@cd $(DRY_RUNS) && for call in line plan; do xargs -d '\n' "$(CURDIR)/$(cudaplan)" < "$(CURDIR)/demo/$$call.args" || exit 1; done
else
demo:
	@echo 'This builds cudaplan without proving it and runs it twice, in about a minute. make build proves it.'
	@cd crates/cudaplan && rt try --data one_target.dry1=../../$(DRY_RUNS)/one_target.dry1 --data one_target.dry2=../../$(DRY_RUNS)/one_target.dry2 --cases ../../demo
endif

# rt builds a program only when it runs it, and leaves it in out/. So it makes a short call, whose output is thrown away.
build:
	$(call needs_kit,make rust)
	cd crates/cudaplan && rt check && rt run -- line cicc /w x.cpp1.ii -o x.ptx > /dev/null
	@.ci/built record programs

# What you want after each edit. It keeps what it proves outside the clone.
check:
	$(call needs_kit,make rust)
	@tests/quick $(CRATE) $(FUNCTION)

# The planner for programs in C, C++, Go and Python (docs/EMBEDDING.md).
lib:
	@$(library_from)
	bindings/c/library.sh $(archive) "$(CURDIR)/out"

header: rust-sources
	cd $(workspace)/capi && cbindgen --quiet --config cbindgen.toml --crate capi --output $(CURDIR)/bindings/c/zigrunk.h .

# The proved sources as crates of plain Rust (docs/proof/PLAIN_RUST.md), and programs and library of them: no kit, and no network if crates are there.
rust: rust-sources
	cd out/rust && cargo build --release
	$(if $(REMOTE),cd out/rust && cargo build --release -p zigrunk-remote $(if $(filter zstd,$(REMOTE)),--features zstd))
	for name in zigrunk zigrunk-nvcc; do ln -sf zigrunk-driver out/rust/target/release/$$name; done

# Crates of others come from vendor/, else from Debian's packages, else from Cargo's registry. REMOTE=yes adds the crate remote, and those that it needs;
# with REMOTE=zstd contents travel compressed, which takes libzstd-dev, 1.5.6 or later, and libclang-dev.
# One at a time: the gate installs and packs side by side, and both begin here.
REMOTE ?=
rust-sources:
	@mkdir -p out
	flock out/rust.lock cargo run --quiet --manifest-path rust/Cargo.toml -p eraser -- $(if $(REMOTE),--remote) . out/rust
	@cd out/rust && flock ../rust.lock cargo fetch --quiet 2> /dev/null || { echo 'There is no source of crates: run make vendor (apt-get), or install the librust packages of README, or let cargo reach crates.io' >&2; exit 1; }

vendor:
	@packaging/vendor.sh $(if $(REMOTE),remote)

# Leaves the sources with their crates, and fetches these if there are none.
crates:
	@$(MAKE) -s rust-sources 2> /dev/null || $(MAKE) -s vendor rust-sources

include packaging/install.mk

# The same with the plain Rust, also if the kit is there.
rust-install:
	@$(MAKE) install BUILT=plain

bench:
	tests/drivers.sh --run cudabench line 100000 cicc /w --device-c -arch compute_80 --module_id_file_name kernel.module_id kernel.cpp1.ii --simt-only -o kernel.ptx

# The programs that run cases, the tests of what no case can say, and cudabench, none of them proved.
drivers:
	$(call needs_kit,make rust && tests/driver.sh)
	@tests/drivers.sh $(NAMES)

# The pages name files, definitions and calls; this finds names that aren't there.
check-docs:
	@tests/docs.py

one:
	@tests/one.sh "$(CASE)"

# What the prover doesn't read.
lint:
	@tests/lint.sh

# Proves nothing. Two runs from one commit give the same bytes.
dist:
	@packaging/dist.sh

test-install:
	$(call needs_kit,make rust-install PREFIX=/tmp/zigrunk)
	@.ci/built check programs || $(MAKE) build
	@tests/install.sh

# What the gate leaves out (tests/parts.txt): all of it, or a part by its name.
nightly: rust
	@tests/run --nightly

$(shell sed -n 's/ *nightly .*//p' tests/parts.txt 2> /dev/null): rust
	@tests/run $@

# With the kit the whole gate: rt ci, and beside it all other tests, of what it built. Without it the tests of the plain build.
test:
	@if command -v rt > /dev/null; then .ci/gate; else .ci/plain; fi
