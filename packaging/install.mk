# The rules that install and uninstall. The Makefile of the repository and that of the source tarball say where the programs and the
# archive of the library are (cudaplan, driver, archive), where the workspace of plain Rust is (workspace), and what makes them
# (programs_from, driver_from, library_from, crates_from), and where pages.sh is (pages). zigrunk-nvcc, for build systems, is a link to zigrunk.
# Nothing is proved again if out/ holds what these sources make. Otherwise each part builds what it installs, so that those who want one part don't
# wait for the other.
install: install-programs install-library install-rust
	@$(pages) installed "$(target)"

install-programs:
	@$(programs_from)
	install -D -m 755 $(cudaplan) "$(target)/bin/cudaplan"
	@$(driver_from)
	if [ -x $(driver) ]; then install -D -m 755 $(driver) "$(target)/bin/zigrunk" && ln -sf zigrunk "$(target)/bin/zigrunk-nvcc"; fi
	if [ -x $(dir $(driver))zigrunk-remote ]; then install -D -m 755 $(dir $(driver))zigrunk-remote "$(target)/bin/zigrunk-remote"; fi
	for page in zigrunk zigrunk-nvcc zigrunk-plan zigrunk-batch zigrunk-cache; do \
		install -D -m 644 man/$$page.1 "$(target)/share/man/man1/$$page.1" || exit 1; done
	ln -sf zigrunk-plan.1 "$(target)/share/man/man1/cudaplan.1"
	for name in report why audit; do ln -sf zigrunk-nvcc.1 "$(target)/share/man/man1/zigrunk-$$name.1"; done
	ln -sf zigrunk-batch.1 "$(target)/share/man/man1/zigrunk-check-node.1"
	install -D -m 644 completions/zigrunk.bash "$(target)/share/bash-completion/completions/zigrunk"
	ln -sf zigrunk "$(target)/share/bash-completion/completions/cudaplan"
	ln -sf zigrunk "$(target)/share/bash-completion/completions/zigrunk-nvcc"
	install -D -m 644 completions/_zigrunk "$(target)/share/zsh/site-functions/_zigrunk"
	find examples -type f ! -path '*/__pycache__/*' | while read -r file; do \
		[ -x "$$file" ] && mode=755 || mode=644; install -D -m "$$mode" "$$file" "$(target)/share/zigrunk/$$file" || exit 1; done
	@$(pages) installed "$(target)"

# The library is linked here, from the archive: the header and the version are always those of this folder.
install-library:
	@$(library_from)
	umask 022 && bindings/c/library.sh $(archive) "$(target)"
	install -D -m 644 man/zigrunk.h.3 "$(target)/share/man/man3/zigrunk.h.3"
	find bindings/c bindings/cpp bindings/go bindings/python -type f ! -path '*/c/library.sh' ! -path '*/c/older_glibc.c' ! -path '*/c/zigrunk.h' ! -name zigrunk.hpp ! -path '*/__pycache__/*' | while read -r file; do \
		install -D -m 644 "$$file" "$(target)/share/zigrunk/$${file#bindings/}" || exit 1; done

# The crate for Rust, with the crates that it is made of: `cargo add --path PREFIX/share/zigrunk/rust/zigrunk`.
install-rust:
	@$(crates_from)
	if [ -d $(workspace)/crates ]; then to=$$(realpath -m "$(target)") && cd $(workspace) && \
		find Cargo.toml crates stand call zigrunk capi driver unix machine cache provenance runner batch report -type f 2> /dev/null | while read -r file; do \
		install -D -m 644 "$$file" "$$to/share/zigrunk/rust/$$file" || exit 1; done; fi

uninstall:
	rm -f "$(target)/bin/cudaplan" "$(target)/bin/zigrunk" "$(target)/share/man/man1/zigrunk.1" "$(target)/share/man/man1/cudaplan.1"
	for name in nvcc plan batch report why cache audit check-node worker slot remote; do rm -f "$(target)/bin/zigrunk-$$name" \
		"$(target)/share/man/man1/zigrunk-$$name.1" "$(target)/share/bash-completion/completions/zigrunk-$$name"; done
	rm -f "$(target)/share/bash-completion/completions/zigrunk" "$(target)/share/bash-completion/completions/cudaplan"
	rm -f "$(target)/share/man/man3/zigrunk.h.3"
	rm -f "$(target)/share/zsh/site-functions/_zigrunk"
	rm -f "$(target)/lib/libzigrunk.a" "$(target)/lib/libzigrunk.so" "$(target)/lib/libzigrunk.so.1" "$(target)/lib/libzigrunk.so.2"
	rm -f "$(target)/lib/pkgconfig/zigrunk.pc"
	for name in zigrunk.h zigrunk_call.h zigrunk.hpp; do rm -f "$(target)/include/$$name"; done
	rm -rf "$(target)/lib/cmake/zigrunk"
	rm -rf "$(target)/share/zigrunk" "$(target)/share/doc/zigrunk"
