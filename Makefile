# make                      proves and builds: the static and the shared library, uadp.pc, the listing program
# make test                 what the gate runs, from nothing (.ci/run)
# make check                program, header, installation, examples and crate tried, without the proofs and edits that make test runs from nothing
# make bench                times the library beside tuned Rust, and says which rows miss the bar (docs/BENCHMARKS.md)
# make install PREFIX=DIR   header, libraries, uadp.pc, uadp_list and its manual page; /usr/local if none is given. DESTDIR is honoured.
# make uninstall PREFIX=DIR takes them away again
# make clean                takes away what this file built; what was proved stays (rm -rf crates/*/out)
# make by_one               the benchmark's own library
# `rt` proves and builds, cargo builds what is in rust/: what is up to date is not built again.
PREFIX ?= /usr/local
BINDIR ?= $(PREFIX)/bin
LIBDIR ?= $(PREFIX)/lib
INCLUDEDIR ?= $(PREFIX)/include
MANDIR ?= $(PREFIX)/share/man
INSTALL ?= install

VERSION := $(shell cat VERSION)
MAJOR := $(firstword $(subst ., ,$(VERSION)))
OUT := target/make
ARCHIVE := target/staticlib/libuadp_c.a
BY_ONE := target/staticlib/libmarks.a
PROGRAM := target/bin/uadp_list
SHARED := $(OUT)/libuadp.so.$(VERSION)
# Any x86-64: without this, rt compiles for x86-64-v2.
CPU := --cpu x86-64

.PHONY: all library program by_one check test bench install uninstall clean
# Only one `rt` works in a crate's folder at a time.
.NOTPARALLEL:

all: library program $(SHARED) $(OUT)/uadp.pc

library: $(ARCHIVE)
program: $(PROGRAM)
by_one: $(BY_ONE)

# Rattle's sources, by which make sees that something changed.
SOURCES := crates.txt $(shell find crates -name out -prune -o \( -name '*.rt' -o -name '*.antt' \) -print)

# One plain line where the kit is missing.
NEEDS_RT = @command -v rt > /dev/null || { echo "this needs rt, the program of the Rattle kit, which is not on the path"; exit 1; }

# A crate is a library or a static library: uadp_c_c exports what uadp_c has. The archive keeps the library's name.
$(ARCHIVE): $(SOURCES)
	$(NEEDS_RT)
	@echo "proving and building the library: long from nothing, then what changed only"
	cd crates/uadp_c_c && rt lib $(CPU)
	@mkdir -p $(@D)
	cp crates/uadp_c_c/out/libuadp_c_c.a $@

$(PROGRAM): $(SOURCES)
	$(NEEDS_RT)
	@echo "proving and building the listing program: long from nothing, then what changed only"
	cd crates/uadp_list && rt run $(CPU) < stdin > /dev/null
	@mkdir -p $(@D)
	cp crates/uadp_list/out/uadp_list $@

# Exactly the header's functions are exported.
$(SHARED): $(ARCHIVE) include/uadp.h
	@mkdir -p $(OUT)
	(echo '{ global:'; sed -n 's/.* UADP_SYMBOL(\([a-z_]*\));$$/uadp_\1;/p' include/uadp.h; echo 'local: *; };') > $(OUT)/exports
	$(CC) -shared -Wl,-soname,libuadp.so.$(MAJOR) -Wl,-z,defs -Wl,-z,text -Wl,--version-script,$(OUT)/exports \
	    -Wl,--whole-archive $(ARCHIVE) -Wl,--no-whole-archive -o $@

# Written anew each time, as PREFIX may have changed.
$(OUT)/uadp.pc: VERSION FORCE
	@mkdir -p $(OUT)
	@printf '%s\n' 'prefix=$(PREFIX)' 'libdir=$(LIBDIR)' 'includedir=$(INCLUDEDIR)' '' 'Name: uadp' \
	    'Description: OPC UA UADP messages read, written, listed and reassembled, by proof' 'Version: $(VERSION)' \
	    'Libs: -L$${libdir} -luadp' 'Cflags: -I$${includedir}' > $@

.PHONY: FORCE
FORCE:

check: all
	tests/listing/run
	tests/header/run
	tests/install/run
	examples/run
	cd rust && CARGO_TARGET_DIR=../target/cargo cargo test --offline --release --workspace --exclude uadp-bench
	cd rust && CARGO_TARGET_DIR=../target/cargo cargo run --offline --release -p uadp-comparison

test:
	.ci/run

# The benchmark's own library, with the loops that it times beside the library's.
$(BY_ONE): $(SOURCES)
	$(NEEDS_RT)
	cd crates/marks_c && rt lib $(CPU)
	@mkdir -p $(@D)
	cp crates/marks_c/out/libmarks_c.a $@

bench: $(ARCHIVE) $(BY_ONE)
	cd rust && CARGO_TARGET_DIR=../target/bench cargo run --offline --profile timed -p uadp-bench

install: all
	$(INSTALL) -d $(DESTDIR)$(BINDIR) $(DESTDIR)$(LIBDIR)/pkgconfig $(DESTDIR)$(INCLUDEDIR) $(DESTDIR)$(MANDIR)/man1
	$(INSTALL) -m 644 include/uadp.h $(DESTDIR)$(INCLUDEDIR)/uadp.h
	$(INSTALL) -m 644 $(ARCHIVE) $(DESTDIR)$(LIBDIR)/libuadp.a
	$(INSTALL) -m 755 $(SHARED) $(DESTDIR)$(LIBDIR)/libuadp.so.$(VERSION)
	ln -sf libuadp.so.$(VERSION) $(DESTDIR)$(LIBDIR)/libuadp.so.$(MAJOR)
	ln -sf libuadp.so.$(MAJOR) $(DESTDIR)$(LIBDIR)/libuadp.so
	$(INSTALL) -m 644 $(OUT)/uadp.pc $(DESTDIR)$(LIBDIR)/pkgconfig/uadp.pc
	$(INSTALL) -m 755 $(PROGRAM) $(DESTDIR)$(BINDIR)/uadp_list
	$(INSTALL) -m 644 docs/uadp_list.1 $(DESTDIR)$(MANDIR)/man1/uadp_list.1

uninstall:
	rm -f $(DESTDIR)$(INCLUDEDIR)/uadp.h $(DESTDIR)$(LIBDIR)/libuadp.a $(DESTDIR)$(LIBDIR)/libuadp.so.$(VERSION) \
	    $(DESTDIR)$(LIBDIR)/libuadp.so.$(MAJOR) $(DESTDIR)$(LIBDIR)/libuadp.so $(DESTDIR)$(LIBDIR)/pkgconfig/uadp.pc \
	    $(DESTDIR)$(BINDIR)/uadp_list $(DESTDIR)$(MANDIR)/man1/uadp_list.1

clean:
	rm -rf $(OUT) target/cargo target/bench
