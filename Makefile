# Builds and installs Ferruntzo.  `make help` lists the targets.
#
#   make && make install PREFIX=$HOME/.local
#
# Proving and building needs the Rattle toolchain (rt on the PATH); installing needs only what was built.

PREFIX ?= /usr/local
DESTDIR ?=

# The library and the program as scripts/build_library and scripts/build_program leave them.
LIBRARY ?= target/staticlib/libferruntzo.a
PROGRAM ?= target/bin/jobcheck
PYTHON ?= python3

VERSION := $(shell sed -n 's/^\#define FERRUNTZO_VERSION "\(.*\)"/\1/p' include/ferruntzo.h)
MAJOR := $(firstword $(subst ., ,$(VERSION)))
# The shared library, which scripts/link_shared links from the static one.
SHARED ?= target/staticlib/libferruntzo.so.$(VERSION)
SOURCES := crates.txt $(shell find crates -name out -prune -o '(' -name '*.rt' -o -name '*.antt' ')' -print)
MODULES := $(wildcard tools/ferruntzo_tool/*.py)
PACKAGE := $(wildcard python/ferruntzo/*.py) python/ferruntzo/py.typed
INSTALL ?= install

root := $(DESTDIR)$(PREFIX)
bin := $(root)/bin
lib := $(root)/lib
share := $(root)/share/ferruntzo
# Where this Python looks under its own prefix, and under ~/.local; Debian's own Python has dist-packages in place of site-packages.
SITE ?= lib/python$(shell $(PYTHON) -c 'import sys; print("%d.%d" % sys.version_info[:2])')/site-packages
site := $(root)/$(SITE)
man := $(root)/share/man
doc := $(root)/share/doc/ferruntzo
DOCS := README.md CHANGELOG.md docs/MEANING.md docs/FORMAT.md docs/show.png

.PHONY: all help install uninstall check

all: $(LIBRARY) $(SHARED) $(PROGRAM)

help:
	@echo 'make                       proves and builds the library and the program'
	@echo 'make install PREFIX=DIR    installs libraries, header, program, tool, Python package, man pages, pkg-config file'
	@echo 'make uninstall PREFIX=DIR  removes what install wrote'
	@echo 'make check                 runs the gate, .ci/run'

# The scripts leave a result that has not changed as it is; touch keeps make from asking again.
target/staticlib/libferruntzo.a: $(SOURCES)
	scripts/build_library
	touch -c $@

$(SHARED): $(LIBRARY) scripts/link_shared include/ferruntzo.h
	scripts/link_shared "$(LIBRARY)" "$(dir $(SHARED))"

target/bin/jobcheck: $(SOURCES)
	scripts/build_program
	touch -c $@

check:
	.ci/run

install: all
	$(INSTALL) -d "$(bin)" "$(lib)/pkgconfig" "$(root)/include" "$(share)/ferruntzo_tool" \
	    "$(man)/man1" "$(man)/man3" "$(doc)"
	$(INSTALL) -m 644 "$(LIBRARY)" "$(lib)/libferruntzo.a"
	$(INSTALL) -m 755 "$(SHARED)" "$(lib)/libferruntzo.so.$(VERSION)"
	ln -sf libferruntzo.so.$(VERSION) "$(lib)/libferruntzo.so.$(MAJOR)"
	ln -sf libferruntzo.so.$(MAJOR) "$(lib)/libferruntzo.so"
	$(INSTALL) -d "$(site)/ferruntzo"
	$(INSTALL) -m 644 $(PACKAGE) "$(site)/ferruntzo"
	$(INSTALL) -m 644 include/ferruntzo.h "$(root)/include/ferruntzo.h"
	$(INSTALL) -m 755 "$(PROGRAM)" "$(bin)/jobcheck"
	$(INSTALL) -m 755 tools/ferruntzo "$(bin)/ferruntzo"
	$(INSTALL) -m 644 $(MODULES) "$(share)/ferruntzo_tool"
	$(INSTALL) -m 644 man/jobcheck.1 man/ferruntzo.1 "$(man)/man1"
	$(INSTALL) -m 644 man/ferruntzo.3 "$(man)/man3"
	$(INSTALL) -m 644 $(DOCS) "$(doc)"
	sed 's/@VERSION@/$(VERSION)/; s/@NAME@/ferruntzo/; s/@LIBS@/-L$${libdir} -lferruntzo/' \
	    ferruntzo.pc.in > "$(lib)/pkgconfig/ferruntzo.pc"
	sed 's/@VERSION@/$(VERSION)/; s/@NAME@/ferruntzo-static/; s/@LIBS@/$${libdir}\/libferruntzo.a/' \
	    ferruntzo.pc.in > "$(lib)/pkgconfig/ferruntzo-static.pc"

uninstall:
	rm -f "$(lib)/libferruntzo.a" "$(lib)/libferruntzo.so.$(VERSION)" "$(lib)/libferruntzo.so.$(MAJOR)" "$(lib)/libferruntzo.so"
	rm -rf "$(site)/ferruntzo"
	rm -f "$(lib)/pkgconfig/ferruntzo.pc" "$(lib)/pkgconfig/ferruntzo-static.pc" "$(root)/include/ferruntzo.h" \
	    "$(bin)/jobcheck" "$(bin)/ferruntzo" "$(man)/man1/jobcheck.1" "$(man)/man1/ferruntzo.1" \
	    "$(man)/man3/ferruntzo.3"
	rm -rf "$(share)/ferruntzo_tool" "$(doc)"
	-rmdir "$(share)" 2>/dev/null || true
