# make test: the gate. Proves and runs everything, then the comparisons.
# make check: proves what changed.  make fmt: lays the sources out.
# make core: puts the definitions that are to be believed into target/core.txt, in reading order.
# make list: builds the lister and lists FILE.
# make lib: builds target/guide/ARCH/libguide.a, for this machine or for ARCH=x86_64|aarch64.
# make install PREFIX=.. DESTDIR=..: library, header, pkg-config file, lister and man pages.  make uninstall: takes them away.
# make compare: compares library and reference for SECONDS.
# make speed: measures.  make peers: measures beside other libraries.
.PHONY: test check fmt core compare speed peers list lib install uninstall
SHELL := /bin/bash
FILE ?= examples/two_eits.bin
ARCH ?= $(shell uname -m)
PREFIX ?= /usr/local
into = $(DESTDIR)$(PREFIX)

test:
	@bash tests/gate.sh

check:
	@rt all check

fmt:
	@for crate in crates/*; do (cd $$crate && rt fmt) || exit 1; done

core:
	@mkdir -p target
	@python3 tools/core.py > target/core.txt
	@echo target/core.txt

list:
	@[ -f "$(FILE)" ] || { echo "make list: there is no file '$(FILE)'"; exit 1; }
	@[ -e target/guide/lister ] || echo "proving the lister first, which takes minutes from nothing" >&2
	@sh tools/lister.sh
	@target/guide/lister < "$(FILE)"

lib:
	@sh tools/lib.sh $(ARCH)
	@echo target/guide/$(ARCH)/libguide.a

install: lib
	@sh tools/lister.sh
	@install -d $(into)/lib/pkgconfig $(into)/include $(into)/bin $(into)/share/man/man1 $(into)/share/man/man3
	@install -m 644 target/guide/$(ARCH)/libguide.a $(into)/lib/
	@install -m 644 include/guide.h $(into)/include/
	@sed 's,@PREFIX@,$(PREFIX),' tools/guide.pc > $(into)/lib/pkgconfig/guide.pc
	@install -m 755 target/guide/lister $(into)/bin/
	@install -m 644 docs/lister.1 $(into)/share/man/man1/
	@install -m 644 docs/guide.3 $(into)/share/man/man3/

uninstall:
	@rm -f $(into)/lib/libguide.a $(into)/lib/pkgconfig/guide.pc $(into)/include/guide.h $(into)/bin/lister \
		$(into)/share/man/man1/lister.1 $(into)/share/man/man3/guide.3

compare:
	@sh tests/compare/run.sh $(SECONDS)

speed:
	@bash bench/checksum.sh
	@bash bench/judge.sh
	@bash bench/writing.sh
	@bash bench/titles.sh
	@bash bench/shelf.sh
	@bash bench/lent.sh
	@sh bench/sizes.sh
	@bash bench/lister.sh
	@bash bench/stack.sh
	@python3 bench/frames.py

peers:
	@sh bench/peers.sh
