# The command, and what a program in C or Rust needs of the proved library. `make` builds the command, `make install` copies all below PREFIX.
# The archive comes first, with its proof: tools/build vutaroi. LIB_DIR names another folder that holds it.
PREFIX = /usr/local
DESTDIR =
BINDIR = $(PREFIX)/bin
LIBDIR = $(PREFIX)/lib
INCLUDEDIR = $(PREFIX)/include
DATADIR = $(PREFIX)/share
LIB_DIR = $(CURDIR)/target/staticlib
CARGO = cargo
INSTALL = install

archive = $(LIB_DIR)/libvutaroi.a
built = $(CURDIR)/target/cargo
command = $(built)/release/vutaroi
version = $(shell sed -n 's/^version = "\(.*\)"/\1/p' rust/vutaroi/Cargo.toml)
crate = $(DATADIR)/vutaroi/rust

.PHONY: all install uninstall test

all: $(archive)
	VUTAROI_LIB_DIR="$(LIB_DIR)" CARGO_TARGET_DIR="$(built)" $(CARGO) build --release --frozen --manifest-path rust/command/Cargo.toml

$(archive):
	@echo 'make: there is no $(archive); tools/build vutaroi proves and writes it' >&2; exit 1

# The tests compare the command with the proved program: tools/build strokes.
test: $(archive)
	VUTAROI_LIB_DIR="$(LIB_DIR)" CARGO_TARGET_DIR="$(built)" $(CARGO) test --frozen --manifest-path rust/command/Cargo.toml

install: all
	$(INSTALL) -d "$(DESTDIR)$(BINDIR)" "$(DESTDIR)$(LIBDIR)/pkgconfig" "$(DESTDIR)$(INCLUDEDIR)" "$(DESTDIR)$(crate)/src"
	$(INSTALL) -d "$(DESTDIR)$(DATADIR)/man/man1" "$(DESTDIR)$(DATADIR)/bash-completion/completions"
	$(INSTALL) -m 755 "$(command)" "$(DESTDIR)$(BINDIR)/vutaroi"
	$(INSTALL) -m 644 "$(archive)" "$(DESTDIR)$(LIBDIR)/libvutaroi.a"
	$(INSTALL) -m 644 include/vutaroi.h "$(DESTDIR)$(INCLUDEDIR)/vutaroi.h"
	sed -e 's|@PREFIX@|$(PREFIX)|; s|@LIBDIR@|$(LIBDIR)|; s|@INCLUDEDIR@|$(INCLUDEDIR)|; s|@VERSION@|$(version)|' share/vutaroi.pc.in >"$(DESTDIR)$(LIBDIR)/pkgconfig/vutaroi.pc"
	chmod 644 "$(DESTDIR)$(LIBDIR)/pkgconfig/vutaroi.pc"
	$(INSTALL) -m 644 share/vutaroi.1 "$(DESTDIR)$(DATADIR)/man/man1/vutaroi.1"
	$(INSTALL) -m 644 share/vutaroi.bash "$(DESTDIR)$(DATADIR)/bash-completion/completions/vutaroi"
	$(INSTALL) -m 644 rust/vutaroi/Cargo.toml rust/vutaroi/Cargo.lock rust/vutaroi/build.rs rust/vutaroi/README.md "$(DESTDIR)$(crate)"
	$(INSTALL) -m 644 rust/vutaroi/src/*.rs "$(DESTDIR)$(crate)/src"

uninstall:
	rm -f "$(DESTDIR)$(BINDIR)/vutaroi" "$(DESTDIR)$(LIBDIR)/libvutaroi.a" "$(DESTDIR)$(INCLUDEDIR)/vutaroi.h"
	rm -f "$(DESTDIR)$(LIBDIR)/pkgconfig/vutaroi.pc" "$(DESTDIR)$(DATADIR)/man/man1/vutaroi.1" "$(DESTDIR)$(DATADIR)/bash-completion/completions/vutaroi"
	rm -rf "$(DESTDIR)$(DATADIR)/vutaroi"
