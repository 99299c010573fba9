# make            proves what is needed, builds the library and the programs, and lists the small sample sheet
# make build      the same without the listing; does nothing where nothing has changed
# make test       the gate: every proof, every must-fail edit, every comparison
# make compare    the comparisons with second/ in full
# make bench      ratios beside second/, in one run on one machine
# make fuzz       mutated inputs of the C calls against second/: ten minutes with the sanitizers in both, then two as shipped
# make interop    pictures, PGM and scans beside pngcheck, netpbm, ImageMagick and cfitsio, as far as they are installed
# make samples    writes samples/ and docs/morning.png anew
# make version    writes VERSION where it is said again: the header and the programs
# make install    programs, libraries, header, man pages, docs and file types below PREFIX; needs no rt after make
# make uninstall  removes what make install with the same variables has put there
.PHONY: all build test compare bench fuzz interop samples version install uninstall clean
# rt proves crates in parallel itself; two runs of it at once would write the same files.
.NOTPARALLEL:

CC ?= cc
CFLAGS ?= -std=c11 -O2 -Wall -Wextra
PREFIX ?= /usr/local
BINDIR ?= $(PREFIX)/bin
LIBDIR ?= $(PREFIX)/lib
INCLUDEDIR ?= $(PREFIX)/include
MANDIR ?= $(PREFIX)/share/man
DOCDIR ?= $(PREFIX)/share/doc/tahliruz
MIMEDIR ?= $(PREFIX)/share/mime
THUMBNAILERDIR ?= $(PREFIX)/share/thumbnailers

VERSION := $(shell cat VERSION)
MAJOR := $(word 1,$(subst ., ,$(VERSION)))
MINOR := $(word 2,$(subst ., ,$(VERSION)))
# While the major version is 0, a new minor version may change structs and calls, so it is part of the name that a program
# looks for; from 1 on the major version alone is.
SONAME := libtahliruz.so.$(if $(filter 0,$(MAJOR)),0.$(MINOR),$(MAJOR))

PROGRAMS := $(addprefix target/bin/,draw_sheet fits_to_sheet list_map list_sheet list_table pgm_to_sheet sheet_to_pgm \
    sheet_to_text text_to_map)
ARCHIVE := target/staticlib/libtahliruz.a
SHARED := target/shared/libtahliruz.so.$(VERSION)
SECOND := second/target/release
# What the proofs depend on. A folder counts too: it changes with a file that goes.
SOURCES := crates.txt $(shell find crates -mindepth 2 \( -name must-fail -o -name out \) -prune -o -print)

all: build
	target/bin/list_sheet < samples/small.sheet

build: $(PROGRAMS) $(ARCHIVE) $(SHARED)

have_rt = command -v rt > /dev/null || { echo "rt, the Rattle toolchain, is not found. It is needed to build: where it is" \
    "at hand, run make before make install" >&2; exit 1; }

# rt goes by contents: what is proved already it does not prove again. A program that it has proved it runs, so here for its version.
$(PROGRAMS) &: $(SOURCES)
	@$(have_rt)
	@mkdir -p target/bin
	@for program in $(notdir $(PROGRAMS)); do \
	    (cd crates/$$program && rt run -- --version) > target/rt.log 2>&1 || { cat target/rt.log; exit 1; }; \
	    install -m 755 crates/$$program/out/$$program target/bin/$$program || exit; echo "$$program is proved and built"; \
	done

$(ARCHIVE): $(SOURCES)
	@$(have_rt)
	@mkdir -p $(@D)
	@(cd crates/tahliruz && rt lib) > target/rt.log 2>&1 || { cat target/rt.log; exit 1; }
	@install -m 644 crates/tahliruz/out/libtahliruz.a $@ && echo "$(notdir $@) is proved and built"

# What rt compiles is position independent.
$(SHARED): $(ARCHIVE) package/tahliruz.map VERSION
	@mkdir -p $(@D)
	$(CC) $(LDFLAGS) -shared -Wl,-soname,$(SONAME) -Wl,--version-script=package/tahliruz.map -Wl,-z,defs -o $@ \
	    -Wl,--whole-archive $(ARCHIVE) -Wl,--no-whole-archive

test:
	@tests/run

compare: $(ARCHIVE) $(PROGRAMS)
	@tests/second build
	@$(SECOND)/compare_tables 1000000
	@$(SECOND)/compare_rows 5000000
	@$(SECOND)/compare_sheets 200000
	@$(SECOND)/compare_fits 200000
	@$(SECOND)/compare_maps 200000
	@$(SECOND)/compare_shelves 100000
	@$(SECOND)/compare_deltas 300000
	@$(SECOND)/compare_listers target/bin/list_sheet target/bin/list_table 2000
	@$(SECOND)/compare_converter target/bin/fits_to_sheet 2000
	@$(SECOND)/compare_desk target/bin 2000

bench: $(ARCHIVE) $(PROGRAMS)
	@tests/second timed
	@second/target/timed/bench target/bin

fuzz:
	@tests/sanitized
	@target/sanitized/cargo/x86_64-unknown-linux-gnu/release/fuzz 600
	@tests/second build
	@$(SECOND)/fuzz 120 5

interop: build
	@tests/interop

samples: $(ARCHIVE) $(PROGRAMS)
	$(CC) $(CFLAGS) -Iinclude -o target/make_samples samples/make_samples.c $(ARCHIVE)
	target/make_samples samples
	$(CC) $(CFLAGS) -Iinclude -o target/make_maps samples/make_maps.c $(ARCHIVE)
	target/make_maps samples
	$(CC) $(CFLAGS) -Iinclude -o target/make_delta samples/make_delta.c $(ARCHIVE)
	target/make_delta samples
	target/bin/draw_sheet -o docs/morning.png --map samples/foot.map --group 4 --total 40561 samples/morning.sheet

version:
	package/version

# The file manager's database is made anew from its packages. Where DESTDIR is given, whoever puts the files in place does that.
update_mime = [ -n "$(DESTDIR)" ] || [ ! -d "$(MIMEDIR)/packages" ] || ! command -v update-mime-database > /dev/null \
    || update-mime-database "$(MIMEDIR)"

install: build
	install -d "$(DESTDIR)$(BINDIR)" "$(DESTDIR)$(LIBDIR)/pkgconfig" "$(DESTDIR)$(INCLUDEDIR)" \
	    "$(DESTDIR)$(MANDIR)/man1" "$(DESTDIR)$(MANDIR)/man3" "$(DESTDIR)$(DOCDIR)/examples" \
	    "$(DESTDIR)$(MIMEDIR)/packages" "$(DESTDIR)$(THUMBNAILERDIR)"
	install -m 755 $(PROGRAMS) "$(DESTDIR)$(BINDIR)"
	install -m 644 $(ARCHIVE) $(SHARED) "$(DESTDIR)$(LIBDIR)"
	ln -sf libtahliruz.so.$(VERSION) "$(DESTDIR)$(LIBDIR)/$(SONAME)"
	ln -sf $(SONAME) "$(DESTDIR)$(LIBDIR)/libtahliruz.so"
	sed -e 's|@PREFIX@|$(PREFIX)|' -e 's|@LIBDIR@|$(LIBDIR)|' -e 's|@INCLUDEDIR@|$(INCLUDEDIR)|' -e 's|@VERSION@|$(VERSION)|' \
	    package/tahliruz.pc.in | install -m 644 /dev/stdin "$(DESTDIR)$(LIBDIR)/pkgconfig/tahliruz.pc"
	install -m 644 include/tahliruz.h "$(DESTDIR)$(INCLUDEDIR)"
	install -m 644 $(patsubst target/bin/%,man/%.1,$(PROGRAMS)) "$(DESTDIR)$(MANDIR)/man1"
	install -m 644 man/tahliruz.3 "$(DESTDIR)$(MANDIR)/man3"
	@# a man page for each call: a line that leads to the one page of them all
	for call in $$(package/calls); do \
	    echo .so man3/tahliruz.3 | install -m 644 /dev/stdin "$(DESTDIR)$(MANDIR)/man3/$$call.3" || exit; done
	install -m 644 docs/FORMAT.md "$(DESTDIR)$(DOCDIR)"
	install -m 644 examples/*.c "$(DESTDIR)$(DOCDIR)/examples"
	install -m 644 package/tahliruz-mime.xml "$(DESTDIR)$(MIMEDIR)/packages/tahliruz.xml"
	install -m 644 package/tahliruz.thumbnailer "$(DESTDIR)$(THUMBNAILERDIR)"
	@$(update_mime)

uninstall:
	rm -f $(patsubst target/bin/%,"$(DESTDIR)$(BINDIR)/%",$(PROGRAMS))
	rm -f "$(DESTDIR)$(LIBDIR)/libtahliruz.a" "$(DESTDIR)$(LIBDIR)/libtahliruz.so.$(VERSION)" \
	    "$(DESTDIR)$(LIBDIR)/$(SONAME)" "$(DESTDIR)$(LIBDIR)/libtahliruz.so" "$(DESTDIR)$(LIBDIR)/pkgconfig/tahliruz.pc"
	rm -f "$(DESTDIR)$(INCLUDEDIR)/tahliruz.h"
	rm -f $(patsubst target/bin/%,"$(DESTDIR)$(MANDIR)/man1/%.1",$(PROGRAMS)) "$(DESTDIR)$(MANDIR)/man3/tahliruz.3"
	for call in $$(package/calls); do rm -f "$(DESTDIR)$(MANDIR)/man3/$$call.3"; done
	rm -f "$(DESTDIR)$(DOCDIR)/FORMAT.md" $(patsubst %,"$(DESTDIR)$(DOCDIR)/%",$(wildcard examples/*.c))
	rm -f "$(DESTDIR)$(MIMEDIR)/packages/tahliruz.xml" "$(DESTDIR)$(THUMBNAILERDIR)/tahliruz.thumbnailer"
	-rmdir "$(DESTDIR)$(DOCDIR)/examples" "$(DESTDIR)$(DOCDIR)"
	@$(update_mime)

clean:
	rm -rf target second/target crates/*/out
