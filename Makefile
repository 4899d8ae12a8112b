# Builds the library and the checkers, installs them, and packs them. Whatever is built is below target/. GNU make.
#
#   make             prove what is not proved yet, and build the library and the two checkers
#   make install     install them with header, pkg-config file, manual pages and documents
#   make uninstall   remove what was installed with the same settings
#   make dist        pack target/vichrelka-VERSION.tar.gz, for people without the prover
#   make host        build the example gateway, target/host/host
#   make accident    replay the accident of examples/host with it, in three ways
#   make check       run the gate, as make test does
#   make clean       remove target/, and the folders out/ in which the prover keeps what is proved
#
# V=1 shows every command, and all that the prover prints. PREFIX, INCLUDEDIR, LIBDIR and MANDIR are where to install;
# DESTDIR goes before each of them, for packages. ARCHIVE=FILE, CHECKER=FILE and LOADER=FILE are a library and checkers
# that are built already: nothing is then proved or built in their place. In a package of make dist this Makefile
# installs what the package has, and does nothing else.

# the header has it too, and says when which number goes up
VERSION = 0.7.0
# the SPDX name of what LICENSE says; it goes into vichrelka.pc and into the installed header
LICENSE_ID = LicenseRef-none-chosen

PREFIX = /usr/local
INCLUDEDIR = $(PREFIX)/include
LIBDIR = $(PREFIX)/lib
MANDIR = $(PREFIX)/share/man
DESTDIR =

ifneq ($(wildcard crates.txt),)
ARCHIVE = target/staticlib/libvichrelka.a
CHECKER = target/bin/listing_check
LOADER = target/bin/load_check
PAGES = target/man
# without what rt makes itself
sources := $(shell find crates crates.txt .kit -name out -prune -o -type f -print)
else
ARCHIVE = lib/libvichrelka.a
CHECKER = libexec/listing_check
LOADER = libexec/load_check
PAGES = man
endif
library = $(filter target/staticlib/libvichrelka.a,$(ARCHIVE))
checkers = $(filter target/bin/listing_check target/bin/load_check,$(CHECKER) $(LOADER))
pages = $(filter target/%,$(PAGES)/vichrelka.3)

# what the header and the manual pages cite
documents = docs/POWER.md docs/PROMISES.md docs/REFUSALS.md docs/RULES.md docs/TRUST.md

# Recipes take these from the environment: so a path may have blanks and quotes in it.
export VERSION LICENSE_ID PREFIX INCLUDEDIR LIBDIR MANDIR DESTDIR ARCHIVE CHECKER LOADER PAGES V
to_bin = "$$DESTDIR$$PREFIX"/bin
to_libexec = "$$DESTDIR$$PREFIX"/libexec/vichrelka
to_doc = "$$DESTDIR$$PREFIX"/share/doc/vichrelka
to_include = "$$DESTDIR$$INCLUDEDIR"
to_lib = "$$DESTDIR$$LIBDIR"
to_man = "$$DESTDIR$$MANDIR"

licensed_header = sed "1s,Identifier: .* \*/,Identifier: $$LICENSE_ID */," include/vichrelka.h

# A folder below PREFIX is named by the prefix, which pkg-config can move.
define pkgconfig_file
below() { case $$1 in "$$PREFIX"/*) printf '%s' '$${prefix}'"$${1#"$$PREFIX"}" ;; *) printf '%s' "$$1" ;; esac; }; \
	printf 'prefix=%s\nincludedir=%s\nlibdir=%s\n\n' "$$PREFIX" "$$(below "$$INCLUDEDIR")" "$$(below "$$LIBDIR")"; \
	cat vichrelka.pc.in; \
	printf 'Version: %s\nLicense: %s\n' "$$VERSION" "$$LICENSE_ID"
endef

ifeq ($(V),)
.SILENT:
endif
.NOTPARALLEL:
.PHONY: all install uninstall dist host accident check test clean

all: $(library) $(checkers) $(pages)
	echo "ready: the library, the checkers and the manual pages; 'make install' installs them"

target/staticlib/libvichrelka.a: $(sources)
	tools/prove staticlib gateway
	cp target/staticlib/libgateway.a $@

target/bin/%: $(sources)
	tools/prove check $*
	test -x $@ && touch $@

# pages of functions that are gone go too
target/man/vichrelka.3: include/vichrelka.h CHANGELOG.md tools/manual
	rm -rf target/man
	tools/manual target/man

install: all
	for folder in PREFIX INCLUDEDIR LIBDIR MANDIR; do \
	  eval "path=\$$$$folder"; \
	  case $$path in /*) continue ;; esac; \
	  echo "make: $$folder is '$$path', and has to begin with /: say make install PREFIX=/usr/local, for example" >&2; \
	  exit 1; \
	done
	install -d $(to_bin) $(to_libexec) $(to_doc) $(to_include) $(to_lib)/pkgconfig $(to_man)/man1 $(to_man)/man3
	$(licensed_header) >$(to_include)/vichrelka.h
	install -m 644 "$$ARCHIVE" $(to_lib)/libvichrelka.a
	{ $(pkgconfig_file); } >$(to_lib)/pkgconfig/vichrelka.pc
	install -m 755 listing-check $(to_bin)
	install -m 755 "$$CHECKER" $(to_libexec)/listing_check
	install -m 755 "$$LOADER" $(to_libexec)/load_check
	install -m 644 LICENSE CHANGELOG.md $(documents) $(to_doc)
	sed 's,\./listing-check,listing-check,g' docs/REFUSALS.md >$(to_doc)/REFUSALS.md
	install -m 644 man/listing-check.1 $(to_man)/man1
	install -m 644 $(PAGES)/*.3 $(to_man)/man3
	chmod 644 $(to_include)/vichrelka.h $(to_lib)/pkgconfig/vichrelka.pc $(to_doc)/REFUSALS.md
	printf 'installed %s\n' $(to_lib)/libvichrelka.a $(to_include)/vichrelka.h $(to_lib)/pkgconfig/vichrelka.pc \
	  $(to_bin)/listing-check $(to_libexec) $(to_doc) $(to_man)/man1/listing-check.1 $(to_man)/man3/vichrelka.3

# Folders that others may use as well stay.
uninstall:
	rm -f $(to_lib)/libvichrelka.a $(to_include)/vichrelka.h $(to_lib)/pkgconfig/vichrelka.pc $(to_bin)/listing-check
	rm -f $(to_man)/man1/listing-check.1 $(to_man)/man3/vichrelka.3 $(to_man)/man3/vichrelka_*.3
	rm -rf $(to_libexec) $(to_doc)
	echo "removed what 'make install' installs with these settings"

ifneq ($(wildcard crates.txt),)
dist: all
	$(licensed_header) | tools/package LICENSE CHANGELOG.md SECURITY.md .kit Makefile vichrelka.pc.in \
	  listing-check man/listing-check.1 $(documents)

host: $(library)
	mkdir -p target/host
	cp examples/host/*.in examples/host/*.hex examples/host/*.listing target/host
	$(CC) -std=c99 -O2 -Wall -Wextra -Wpedantic $(CFLAGS) -Iinclude -o target/host/host examples/host/host.c "$$ARCHIVE"
	echo "built target/host/host; 'make accident' replays the accident with it"

# A refusal, status 1, is what these show.
accident: host
	cd target/host && for way in whole line-lost entry-lost; do \
	  echo; echo "accident-$$way.in"; ./host accident-$$way.in || [ $$? -eq 1 ] || exit 1; \
	done

check test:
	.ci/run

clean:
	echo "removing target/ and crates/*/out, with what is known to be proved: the next build proves it again"
	rm -rf target crates/*/out
else
dist host accident check test clean:
	echo "make: this is a package: it can be installed and uninstalled; '$@' is for the repository" >&2; exit 1
endif
