# One command for each thing that is done here; `make help` lists them. Whoever installs the program needs `make` and
# `make install`, whoever changes it `make try`, `make quick` and `make test`.

PREFIX = /usr/local
DESTDIR =
PROGRAM = crates/derguard/out/derguard
LIBRARY = out/library
LIBDIR = $(PREFIX)/lib

bindir = $(DESTDIR)$(PREFIX)/bin
man1dir = $(DESTDIR)$(PREFIX)/share/man/man1
man5dir = $(DESTDIR)$(PREFIX)/share/man/man5
bashdir = $(DESTDIR)$(PREFIX)/share/bash-completion/completions
zshdir = $(DESTDIR)$(PREFIX)/share/zsh/site-functions
fishdir = $(DESTDIR)$(PREFIX)/share/fish/vendor_completions.d
docdir = $(DESTDIR)$(PREFIX)/share/doc/derguard
includedir = $(DESTDIR)$(PREFIX)/include
libdir = $(DESTDIR)$(LIBDIR)
version = $(shell cat VERSION)
lowerdir = $(DESTDIR)$(PREFIX)/share/derguard-lower
lowering = $(filter-out lower/test_%,$(wildcard lower/*.py))
# What a machine lacks of packaging/packages.txt is a failure of `make test`, and with 1 left out.
ALLOW_MISSING ?= 0
need_crate = [ -f crates/$(CRATE)/src/lib.rt ] || [ -f crates/$(CRATE)/src/main.rt ] || \
	{ echo 'name a crate: make $@ CRATE=guard_der' >&2; exit 1; }
shared = $(wildcard packaging/*.schema.json) packaging/Containerfile packaging/kubernetes.yaml
documents = README.md CHANGELOG.md lower/README.md bench/figures.md bench/figures.svg $(wildcard docs/*) $(shared) \
	$(shell find examples -type f ! -name '*.pyc')

program: ## proves and builds the program, in about an hour from nothing
	packaging/build-program

help: ## lists these commands
	@sed -n 's/^\([a-z-]*\):.*## /\1: /p' Makefile | while IFS= read -r line; do \
	    printf '  make %-10s %s\n' "$${line%%: *}" "$${line#*: }"; \
	done
	@echo
	@echo '  make alone is make program. What CRATE is: a folder of crates/.'

try: ## a first look without proof: builds the program, and runs it on messages
	@tools/try

quick: ## tests a change without proof, in minutes: after each edit
	@tools/quick

test: ## tests everything, as the gate does: proofs, edits, rows, the program as a process
	@ALLOW_MISSING=$(ALLOW_MISSING) tools/needs
	@ALLOW_MISSING=$(ALLOW_MISSING) .ci/run

prove: ## CRATE=..: proves a crate, beginning with what was proved of it before
	@$(need_crate)
	cd crates/$(CRATE) && rt check

edits: ## CRATE=..: tries the edits of a crate that the prover must refuse
	@$(need_crate)
	tools/edits --kept $(CRATE)

unproved: ## builds the program without proof, as out/unproved/derguard
	@tools/try --keep

bench: ## measures speed and memory, as bench/figures.md has them
	bench/run

packages: ## lists what the gate needs besides the toolchain, and what is missing here
	@tools/packages

library: ## proves and builds the library for C
	packaging/build-library

# Nothing is built here: who installs may have no toolchain, or a program that was built elsewhere.
install: ## [PREFIX=/usr/local] [DESTDIR=]: the program, and the library where it was built
	@test -x $(PROGRAM) || { echo '$(PROGRAM) is not there: make builds it' >&2; exit 1; }
	install -D -m 755 $(PROGRAM) $(bindir)/derguard
	install -D -m 644 man/derguard.1 $(man1dir)/derguard.1
	install -D -m 644 man/derguard-policy.5 $(man5dir)/derguard-policy.5
	install -D -m 644 completions/derguard.bash $(bashdir)/derguard
	install -D -m 644 completions/_derguard $(zshdir)/_derguard
	install -D -m 644 completions/derguard.fish $(fishdir)/derguard.fish
	install -D -m 644 -t $(lowerdir) $(lowering)
	install -D -m 755 -t $(lowerdir) lower/derguard-lower
	ln -sf ../share/derguard-lower/derguard-lower $(bindir)/derguard-lower
	install -D -m 644 man/derguard-lower.1 $(man1dir)/derguard-lower.1
	install -D -m 644 completions/derguard-lower.bash $(bashdir)/derguard-lower
	install -D -m 644 completions/_derguard-lower $(zshdir)/_derguard-lower
	install -D -m 644 completions/derguard-lower.fish $(fishdir)/derguard-lower.fish
	for file in $(documents); do \
	    if [ -x $$file ]; then mode=755; else mode=644; fi; \
	    install -D -m $$mode $$file $(docdir)/$$file || exit 1; \
	done
	if [ -f $(LIBRARY)/libderguard.a ]; then $(MAKE) -s install-library; fi

install-library:
	install -D -m 644 include/derguard.h $(includedir)/derguard.h
	install -D -m 644 $(LIBRARY)/libderguard.a $(libdir)/libderguard.a
	install -D -m 644 $(LIBRARY)/libderguard.so.$(version) $(libdir)/libderguard.so.$(version)
	ln -sf libderguard.so.$(version) $(libdir)/libderguard.so.0
	ln -sf libderguard.so.0 $(libdir)/libderguard.so
	install -d $(libdir)/pkgconfig
	sed 's,@PREFIX@,$(PREFIX),; s,@LIBDIR@,$(LIBDIR),; s,@VERSION@,$(version),' packaging/derguard.pc.in \
	    > $(libdir)/pkgconfig/derguard.pc
	chmod 644 $(libdir)/pkgconfig/derguard.pc

# Folders that others may use are left.
uninstall: ## takes away what make install with the same words put there
	rm -f $(bindir)/derguard $(man1dir)/derguard.1 $(man5dir)/derguard-policy.5
	rm -f $(includedir)/derguard.h $(libdir)/libderguard.a $(libdir)/libderguard.so $(libdir)/libderguard.so.0
	rm -f $(libdir)/libderguard.so.$(version) $(libdir)/pkgconfig/derguard.pc
	rm -f $(bashdir)/derguard $(zshdir)/_derguard $(fishdir)/derguard.fish $(addprefix $(docdir)/,$(documents))
	rm -rf $(lowerdir) $(bindir)/derguard-lower $(man1dir)/derguard-lower.1
	rm -f $(bashdir)/derguard-lower $(zshdir)/_derguard-lower $(fishdir)/derguard-lower.fish
	if [ -d $(docdir) ]; then find $(docdir) -depth -type d -empty -delete; fi

deb: ## makes out/derguard_VERSION_ARCH.deb
	packaging/make-deb out

.PHONY: program help try quick test prove edits unproved bench packages library install install-library uninstall deb
