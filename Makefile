# Thin rules over the toolchain's command rt, which does the work and keeps what it has proved.
#   make           prove and build the programs, and run the first once
#   make quick     run the program before any proof
#   make test      run all tests before any proof, as many crates at a time as there are processors, or JOBS
#   make check     the gate: every proof, test and program, and the must-fail edits in crates/; two checks at a time, or RT_JOBS
#   make must-fail try the edits in edits/, too: of the crates that changed since the last tag, or of all with ALL=1
#   make install   the programs with their manual pages and completions below PREFIX (and DESTDIR); the library and the crate for
#                  Rust over it where it is built, and so the wheel for Python
#   make library   prove and build the library for C, and compare its calls with the header's
#   make bindings  build and test the packages for Rust and Python over the library
#   make examples  build and run the callers of the library, and compare the walkers with git
#   make dist      pack the programs, the library and the packages over it: a tarball, Debian packages, a wheel, a crate and their
#                  SHA-256 in out/dist
#   make reproduce pack them in two clones of the last commit, and compare each file
PREFIX ?= /usr/local
BINDIR ?= $(PREFIX)/bin
MANDIR ?= $(PREFIX)/share/man
LIBDIR ?= $(PREFIX)/lib
INCLUDEDIR ?= $(PREFIX)/include
DATADIR ?= $(PREFIX)/share

folder := crates/pathspec_select_cli
program := $(folder)/out/pathspec_select_cli
# The program that people keep on their PATH.
tool := crates/pathspec_cli/out/pathspec_cli
library := target/library
# Where the wheel for Python is taken from.
WHEELS ?= target/bindings
# The number of the declarations, which names the shared library and stands in pathspec.pc.
version = $(shell sed -n 's/^.define PS_VERSION //p' include/pathspec.h)
# A folder as pathspec.pc names it: by its prefix, where it lies below it.
below = $(1:$(PREFIX)/%=$${prefix}/%)

.PHONY: all quick test check must-fail install library bindings examples dist reproduce

all:
	cd $(folder) && rt run -- ':(glob)src/*.c' < stdin
	@cd crates/pathspec_cli && rt run -- filter -q src < stdin

quick:
	cd $(folder) && rt try -- ':(glob)src/*.c' < stdin

test:
	bash tests/run

check:
	bash .ci/run

must-fail:
	edits/run $(if $(ALL),--all)

install:
	@test -x $(program) -a -x $(tool) || { echo "$(program) and $(tool) aren't built: run make" >&2; exit 1; }
	install -d $(DESTDIR)$(BINDIR) $(DESTDIR)$(MANDIR)/man1
	install $(program) $(DESTDIR)$(BINDIR)/pathspec-select
	install $(tool) $(DESTDIR)$(BINDIR)/pathspec
	install -m 644 docs/pathspec-select.1 docs/pathspec.1 $(DESTDIR)$(MANDIR)/man1
	install -D -m 644 dist/completions/pathspec.bash $(DESTDIR)$(DATADIR)/bash-completion/completions/pathspec
	install -D -m 644 dist/completions/_pathspec $(DESTDIR)$(DATADIR)/zsh/site-functions/_pathspec
	install -D -m 644 dist/completions/pathspec.fish $(DESTDIR)$(DATADIR)/fish/vendor_completions.d/pathspec.fish
	@if test -f $(library)/libpathspec.a; then $(MAKE) --no-print-directory install-library; fi
	@if ls $(WHEELS)/puneloviash-*.whl > /dev/null 2>&1; then $(MAKE) --no-print-directory install-wheel; fi

.PHONY: install-library install-wheel
install-library:
	install -d $(DESTDIR)$(LIBDIR)/pkgconfig $(DESTDIR)$(INCLUDEDIR)
	install -m 644 $(library)/libpathspec.a $(DESTDIR)$(LIBDIR)/libpathspec.a
	install -m 644 $(library)/libpathspec.so $(DESTDIR)$(LIBDIR)/libpathspec.so.$(version)
	ln -sf libpathspec.so.$(version) $(DESTDIR)$(LIBDIR)/libpathspec.so
	sed 's|@PREFIX@|$(PREFIX)|; s|@LIBDIR@|$(call below,$(LIBDIR))|; s|@INCLUDEDIR@|$(call below,$(INCLUDEDIR))|; s|@VERSION@|$(version)|' \
	    include/pathspec.pc.in > $(DESTDIR)$(LIBDIR)/pkgconfig/pathspec.pc
	install -m 644 include/pathspec.h $(DESTDIR)$(INCLUDEDIR)/pathspec.h
	cd bindings/rust && for file in *.* src/* tests/*; do \
	    install -D -m 644 $$file $(abspath $(DESTDIR)$(DATADIR))/puneloviash/rust/$$file || exit; \
	done
	install -m 644 LICENSE-APACHE LICENSE-MIT $(DESTDIR)$(DATADIR)/puneloviash/rust

install-wheel:
	install -d $(DESTDIR)$(DATADIR)/puneloviash
	install -m 644 $(WHEELS)/puneloviash-*.whl $(DESTDIR)$(DATADIR)/puneloviash

library:
	bash examples/library

bindings:
	bash bindings/run

examples:
	bash examples/run

dist:
	@test -z "$$(git status --porcelain)" || { echo "dist: commit first, since the packages are named for the last commit" >&2; exit 1; }
	$(MAKE) --no-print-directory all library
	bash dist/build $(version)

reproduce:
	bash dist/reproduce
