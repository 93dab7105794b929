# Builds, installs and tries libbedside.a, trackbox, why and motbox. `make help` says the targets.
PREFIX = /usr/local
INSTALL = install

# Already built ones are used where the environment names them.
BEDSIDE_ARCHIVE ?= crates/bedside/out/libbedside.a
BEDSIDE_TRACKBOX ?= crates/trackbox/out/trackbox
BEDSIDE_WHY ?= crates/why/out/why
BEDSIDE_MOTBOX ?= crates/motbox/out/motbox
export BEDSIDE_ARCHIVE BEDSIDE_TRACKBOX BEDSIDE_WHY BEDSIDE_MOTBOX

SOURCES = crates.txt $(shell find crates -name out -prune -o -type f -print)
VERSION = $(shell sed -n 's/^.define BEDSIDE_VERSION_STRING "\(.*\)"$$/\1/p' include/bedside.h)

ROOT = $(abspath $(PREFIX))
INTO = $(DESTDIR)$(ROOT)
HEADER = $(INTO)/include/bedside.h
ARCHIVE = $(INTO)/lib/libbedside.a
PKGCONFIG = $(INTO)/lib/pkgconfig/bedside.pc
PROGRAMS = $(INTO)/bin
MANUALS = $(INTO)/share/man/man1
PAPERS = LICENSE NOTICE CHANGELOG.md
DOCUMENTS = $(INTO)/share/doc/bedside

all: $(BEDSIDE_ARCHIVE) $(BEDSIDE_TRACKBOX) $(BEDSIDE_WHY) $(BEDSIDE_MOTBOX)

# rt proves what is not proved yet, then builds. A program is built by running it: without input and arguments it ends at once,
# and why says its usage.
crates/bedside/out/libbedside.a: $(SOURCES)
	cd crates/bedside && rt lib --cpu=x86-64
	touch $@

crates/trackbox/out/trackbox crates/why/out/why crates/motbox/out/motbox: $(SOURCES)
	oracle/built $(@F) >/dev/null
	touch $@

install: all
	$(INSTALL) -d $(dir $(HEADER) $(ARCHIVE) $(PKGCONFIG)) $(PROGRAMS) $(MANUALS) $(DOCUMENTS)
	$(INSTALL) -m 644 include/bedside.h $(HEADER)
	$(INSTALL) -m 644 $(BEDSIDE_ARCHIVE) $(ARCHIVE)
	sed -e 's|@PREFIX@|$(ROOT)|' -e 's|@VERSION@|$(VERSION)|' bedside.pc.in >$(PKGCONFIG)
	chmod 644 $(PKGCONFIG)
	$(INSTALL) -m 755 $(BEDSIDE_TRACKBOX) $(PROGRAMS)/trackbox
	$(INSTALL) -m 755 $(BEDSIDE_WHY) $(PROGRAMS)/why
	$(INSTALL) -m 755 $(BEDSIDE_MOTBOX) $(PROGRAMS)/motbox
	$(INSTALL) -m 644 docs/trackbox.1 docs/why.1 docs/motbox.1 $(MANUALS)
	$(INSTALL) -m 644 $(PAPERS) $(DOCUMENTS)

uninstall:
	rm -f $(HEADER) $(ARCHIVE) $(PKGCONFIG) $(addprefix $(PROGRAMS)/,trackbox why motbox) \
	    $(addprefix $(MANUALS)/,trackbox.1 why.1 motbox.1) $(addprefix $(DOCUMENTS)/,$(PAPERS))

check: all
	tools/install_check

help:
	@echo 'make            builds libbedside.a, trackbox, why and motbox with rt, which proves what is not'
	@echo '                proved yet'
	@echo 'make install    puts header, archive, pkg-config file, the programs, their manual pages and'
	@echo '                the licences under PREFIX ($(PREFIX)), all below DESTDIR where that is set'
	@echo 'make uninstall  removes what make install put there'
	@echo 'make check      installs into a temporary prefix and tries what is there: header, archive,'
	@echo '                programs, manual pages; and the examples in C and Rust'
	@echo 'make help       this'
	@echo
	@echo 'BEDSIDE_ARCHIVE, BEDSIDE_TRACKBOX, BEDSIDE_WHY and BEDSIDE_MOTBOX in the environment name a'
	@echo 'libbedside.a and programs that are built already; they are used in the place of new ones.'
	@echo 'rt ci proves what it has not passed here before, and tests everything.'

.PHONY: all install uninstall check help
