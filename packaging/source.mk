# Builds Zigrunk from its source tarball, and installs it. It needs cargo and rustc 1.85 or later, a C compiler and binutils, and no network: crates of others are in vendor.
PREFIX ?= /usr/local
DESTDIR ?=
CARGO ?= cargo
target = $(DESTDIR)$(PREFIX)
built ?= target/release
cudaplan = $(built)/cudaplan
driver = $(built)/zigrunk-driver
archive = $(built)/libzigrunk_c.a
programs_from ?= $(MAKE) build
driver_from = :
library_from ?= $(MAKE) build
workspace = .
pages = ./pages.sh
crates_from = :

# Unit tests, by cargo alone, without what optimizing and debuggers cost. The last line is N passed, M failed.
tests = test.log
test:
	@status=0; CARGO_INCREMENTAL=0 CARGO_PROFILE_DEV_DEBUG=0 $(CARGO) test --offline --locked --no-fail-fast --lib --tests -p call -p zigrunk -p unix -p machine -p cache -p provenance -p runner -p report -p batch -p zigrunk-driver > $(tests) 2>&1 || status=$$?; \
	    grep -v '^$$' $(tests); awk '/^test result:/ { passed += $$4; failed += $$6 } END { print passed + 0 " passed, " failed + 0 " failed" }' $(tests); \
	    exit $$status

.PHONY: build demo test install install-programs install-library install-rust uninstall

build:
	$(CARGO) build --release --offline --locked

# A cicc line that is read and written back, and the plan of two real dry runs.
demo: build
	@cd demo && for call in line plan; do xargs -d '\n' "$(CURDIR)/$(cudaplan)" < $$call.args || exit 1; done

include install.mk
