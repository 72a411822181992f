# The messages of the call desk for C: the archive, the header, the example console; the programs listing and replay; the installation.
#
#   make                      build/libcad.a, from the proved crate console_c (proves what is not proved yet), and build/cad.pc
#   make console              build/console, from examples/console.c
#   make programs             build/listing and build/replay, from the proved crates of these names
#   make install [PREFIX=/usr/local] [DESTDIR=]    header, archive, cad.pc, manual pages and the two programs
#   make uninstall [..]       takes them away again
#   make check-c              the tests of all this
#   make clean                removes build/
#
# ARCHIVE=FILE takes an archive that `rt lib` wrote elsewhere, in crates/console_c/out, and PROGRAMS=DIR the two programs, copied from
# crates/listing/out and crates/replay/out into a folder DIR, so that the rest needs no Rattle kit. PROGRAMS=none, as it is where ARCHIVE
# alone is given, leaves them out.

PREFIX = /usr/local
DESTDIR =
BINDIR = $(PREFIX)/bin
INCLUDEDIR = $(PREFIX)/include
LIBDIR = $(PREFIX)/lib
MANDIR = $(PREFIX)/share/man
CFLAGS = -O2 -std=c99 -Wall -Wextra -pedantic
ARCHIVE ?=
PROGRAMS ?= $(if $(ARCHIVE),none)
BUILT = $(if $(filter none,$(PROGRAMS)),,build/listing build/replay)

VERSION = $(shell sed -n 's/^\#define CAD_VERSION "\(.*\)"/\1/p' include/cad.h)
INSTALL = install -m 644

all: build/libcad.a build/cad.pc

console: build/console

programs: $(BUILT)

# The archive is asked for every time, since tools/built knows what it is made from; what was built is taken over if it is another one.
build/libcad.a: FORCE
	@mkdir -p build
ifeq ($(ARCHIVE),)
	@built=$$(tools/built console_c build/lib.log) && { cmp -s $$built $@ || cp $$built $@; }
else
	@cmp -s $(ARCHIVE) $@ || cp $(ARCHIVE) $@
endif

# The programs are x86-64 ELF files for the C library of the host, glibc 2.34 or newer; they need nothing else of the kit.
build/listing build/replay: build/%: FORCE
	@mkdir -p build
ifeq ($(PROGRAMS),)
	@built=$$(tools/built $* build/$*.log) && { cmp -s $$built $@ || cp $$built $@; }
else
	@cmp -s $(PROGRAMS)/$* $@ || cp $(PROGRAMS)/$* $@
endif

# As written, cad.pc has the folders of one installation, so it is made anew each time.
build/cad.pc: cad.pc.in include/cad.h FORCE
	@mkdir -p build
	@sed -e 's|@PREFIX@|$(PREFIX)|' -e 's|@INCLUDEDIR@|$(INCLUDEDIR)|' -e 's|@LIBDIR@|$(LIBDIR)|' -e 's|@VERSION@|$(VERSION)|' \
	    cad.pc.in >$@

build/console: examples/console.c include/cad.h build/libcad.a
	tests/cc c $@ $(CFLAGS) -Iinclude examples/console.c build/libcad.a

install: all programs
	install -d $(DESTDIR)$(INCLUDEDIR) $(DESTDIR)$(LIBDIR)/pkgconfig $(DESTDIR)$(MANDIR)/man1 $(DESTDIR)$(MANDIR)/man3
	$(INSTALL) include/cad.h $(DESTDIR)$(INCLUDEDIR)/cad.h
	$(INSTALL) build/libcad.a $(DESTDIR)$(LIBDIR)/libcad.a
	$(INSTALL) build/cad.pc $(DESTDIR)$(LIBDIR)/pkgconfig/cad.pc
	$(INSTALL) man/listing.1 man/replay.1 $(DESTDIR)$(MANDIR)/man1
	$(INSTALL) man/cad_read.3 man/cad_read_at.3 man/cad_write.3 $(DESTDIR)$(MANDIR)/man3
	$(if $(BUILT),install -d $(DESTDIR)$(BINDIR) && install -m 755 $(BUILT) $(DESTDIR)$(BINDIR))

uninstall:
	rm -f $(DESTDIR)$(INCLUDEDIR)/cad.h $(DESTDIR)$(LIBDIR)/libcad.a $(DESTDIR)$(LIBDIR)/pkgconfig/cad.pc \
	    $(DESTDIR)$(MANDIR)/man1/listing.1 $(DESTDIR)$(MANDIR)/man1/replay.1 $(DESTDIR)$(MANDIR)/man3/cad_read.3 \
	    $(DESTDIR)$(MANDIR)/man3/cad_read_at.3 $(DESTDIR)$(MANDIR)/man3/cad_write.3 $(DESTDIR)$(BINDIR)/listing $(DESTDIR)$(BINDIR)/replay

check-c:
	bash tests/c.test
	bash tests/differential.test

clean:
	rm -rf build

# two rt at once would wait for each other all the same
.NOTPARALLEL:

FORCE:

.PHONY: all console programs install uninstall check-c clean FORCE
