# Builds, installs and packs the library and its programs.
#
#   make                            the archive, the program nnef_canon and the command nnef
#   make install PREFIX= DESTDIR=   copies them, with headers, manual pages and the licence, under DESTDIR/PREFIX
#   make uninstall PREFIX= DESTDIR= removes them again
#   make dist                       the archive and headers with checksums and the kit's identity, as target/dist/*.tar.gz
#   make check                      every test but the proofs, which `.ci/run` does

SHELL := bash
.SHELLFLAGS := -euo pipefail -c
.DELETE_ON_ERROR:

PREFIX ?= /usr/local
DESTDIR ?=

version := $(shell sed -n 's/^\#define NNEF_LIBRARY_VERSION "\(.*\)"/\1/p' include/nnef.h)
archive := crates/nnef/out/libnnef.a
program := crates/nnef_canon/out/nnef_canon
command := target/command/release/nnef
proved := crates.txt $(shell find crates -type f -not -path '*/out/*')
rust := $(shell find command bindings include -type f -not -path '*/target/*')
package := sluicegnome-$(version)-x86_64-linux
installed := bin/nnef bin/nnef_canon lib/libnnef.a lib/pkgconfig/sluicegnome.pc \
    include/sluicegnome/nnef.h include/sluicegnome/nnef.rs share/doc/sluicegnome/LICENSE \
    share/man/man1/nnef.1 share/man/man1/nnef_canon.1 share/man/man3/nnef.3

.PHONY: all install uninstall dist check
all: $(archive) $(program) $(command)

$(archive): $(proved)
	(cd crates/nnef && rt lib) | grep -E '^(rt:|logic=)'
	test -e $@ && touch $@

$(program): $(proved)
	(cd crates/nnef_canon && rt run </dev/null) 2>&1 | grep -E '^(rt:|logic=)'
	test -e $@ && touch $@

$(command): $(archive) $(rust)
	NNEF_LIB_DIR=$(CURDIR)/crates/nnef/out cargo build --quiet --release --offline --manifest-path command/Cargo.toml --target-dir target/command
	touch $@

target/sluicegnome.pc: sluicegnome.pc.in include/nnef.h FORCE
	sed 's|@PREFIX@|$(PREFIX)|; s|@VERSION@|$(version)|' $< > $@
.PHONY: FORCE

install: all target/sluicegnome.pc
	install -D -m 755 $(command) '$(DESTDIR)$(PREFIX)/bin/nnef'
	install -D -m 755 $(program) '$(DESTDIR)$(PREFIX)/bin/nnef_canon'
	install -D -m 644 $(archive) '$(DESTDIR)$(PREFIX)/lib/libnnef.a'
	install -D -m 644 target/sluicegnome.pc -t '$(DESTDIR)$(PREFIX)/lib/pkgconfig'
	install -D -m 644 include/nnef.h include/nnef.rs -t '$(DESTDIR)$(PREFIX)/include/sluicegnome'
	install -D -m 644 LICENSE -t '$(DESTDIR)$(PREFIX)/share/doc/sluicegnome'
	install -D -m 644 man/nnef.1 man/nnef_canon.1 -t '$(DESTDIR)$(PREFIX)/share/man/man1'
	install -D -m 644 man/nnef.3 -t '$(DESTDIR)$(PREFIX)/share/man/man3'

uninstall:
	cd '$(DESTDIR)$(PREFIX)' && rm -f $(installed)
	cd '$(DESTDIR)$(PREFIX)' && rmdir include/sluicegnome share/doc/sluicegnome

# The same sources and kit give the same bytes.
dist: $(archive)
	rm -rf target/dist
	install -D -m 644 $(archive) -t target/dist/$(package)/lib
	install -D -m 644 include/nnef.h include/nnef.rs -t target/dist/$(package)/include/sluicegnome
	install -m 644 LICENSE -t target/dist/$(package)
	rt version > target/dist/$(package)/KIT
	cd target/dist/$(package) && find * -type f | LC_ALL=C sort | xargs sha256sum > ../SHA256SUMS && mv ../SHA256SUMS .
	tar -C target/dist --sort=name --mtime=@0 --owner=0 --group=0 --numeric-owner --mode=u=rwX,go=rX \
	    -c $(package) | gzip -9n > target/dist/$(package).tar.gz
	@echo target/dist/$(package).tar.gz

check: all
	tests/run 20000
	tests/run_syntax 5000
	tests/run_program
	tests/run_documents
	tests/run_command
	tests/run_examples
	tests/run_install
