# Installs what a prover in C links: the archive, its header and a pkg-config file, below DESTDIR and PREFIX.
#
#   make install PREFIX=/usr/local
#
# KECCAK_TABLES_ARCHIVE names an archive that was built elsewhere; without it the Rattle kit proves and compiles one.

PREFIX = /usr/local
VERSION := $(shell sed -n 's/^version = "\(.*\)"/\1/p' host/Cargo.toml | head -n 1)
KECCAK_TABLES_ARCHIVE ?= target/staticlib/libkeccak_tables.a
lib = $(DESTDIR)$(PREFIX)/lib
headers = $(DESTDIR)$(PREFIX)/include

.PHONY: archive install

archive: $(KECCAK_TABLES_ARCHIVE)

# rt looks for what has changed; a given archive is taken as it is.
.PHONY: target/staticlib/libkeccak_tables.a
target/staticlib/libkeccak_tables.a:
	cd crates/keccak_tables_c && rt lib
	install -D -m 644 crates/keccak_tables_c/out/libkeccak_tables_c.a $@

install: archive
	install -d "$(lib)/pkgconfig" "$(headers)"
	install -m 644 "$(KECCAK_TABLES_ARCHIVE)" "$(lib)/libkeccak_tables.a"
	install -m 644 include/keccak_tables.h "$(headers)"
	sed -e 's|@PREFIX@|$(PREFIX)|' -e 's|@VERSION@|$(VERSION)|' include/keccak_tables.pc.in >"$(lib)/pkgconfig/keccak_tables.pc"
