# Builds, installs and tests the hours exchange (GNU make).
#
#   make               the libraries and the command, in target/make
#   make install       PREFIX=/usr/local, DESTDIR= for packages, PYTHONDIR= for the Python module
#   make uninstall     takes away what install put there, with the same variables
#   make quick-test    every test but the gate
#   make test          the gate, rt ci, and then the others
#   make clean         takes away what make built, and leaves what rt proved
#
# What is proved is made by rt, the command of the Rattle kit, and is kept in crates/*/out: the first
# make proves all crates that the libraries rest on, and takes minutes; later ones only what changed.

VERSION := $(shell cat VERSION)
SONAME := libhours_exchange.so.1
BUILT := target/make

PREFIX ?= /usr/local
DESTDIR ?=
BINDIR ?= $(PREFIX)/bin
INCLUDEDIR ?= $(PREFIX)/include
LIBDIR ?= $(PREFIX)/lib
MANDIR ?= $(PREFIX)/share/man
PYTHON ?= python3
INSTALL ?= install

# Where python3 looks for modules below PREFIX, or the folder of that name if it looks nowhere there.
ifndef PYTHONDIR
PYTHONDIR := $(or $(shell $(PYTHON) -c 'import site, sys; lib = sys.argv[1] + "/lib/"; \
	print(next((d for d in site.getsitepackages() if d.startswith(lib)), ""))' '$(PREFIX)' 2>/dev/null),$(PREFIX)/lib/python3/dist-packages)
endif

CC ?= cc
CFLAGS ?= -O2

SHELL := /bin/bash
.SHELLFLAGS := -eu -o pipefail -c
.DELETE_ON_ERROR:
.PHONY: all install uninstall test quick-test clean

# All that rt proves for the libraries.
sources := crates.txt $(sort $(shell find crates -type f -path 'crates/*/*/*' \
	-not -path '*/must-fail/*' -not -path 'crates/*/data/*' -not -path 'crates/*/out/*'))

library := $(BUILT)/libhours_exchange.a
shared := $(BUILT)/$(SONAME)
command := $(BUILT)/exchange

all: $(library) $(shared) $(BUILT)/libhours_exchange.so $(command) $(BUILT)/hours_exchange.pc

define announce
@[ -d crates/exchange_c/out ] || echo "make: everything is proved first; from nothing that takes some fifteen minutes on two cores, with a line for each function"
@mkdir -p $(BUILT)
endef

$(library): $(sources)
	$(announce)
	cd crates/exchange_c && rt lib
	cp crates/exchange_c/out/libexchange_c.a $@

# The command is a Rattle program, which rt proves, builds and runs; one proves at a time.
$(command): $(sources) | $(library)
	$(announce)
	cd crates/exchange && rt run -- --version
	cp crates/exchange/out/exchange $@

# Nothing but the functions of the header can be seen from outside.
$(BUILT)/exports.map: Makefile
	@mkdir -p $(BUILT)
	echo '{ global: exchange_*; local: *; };' >$@

$(shared): $(library) $(BUILT)/exports.map
	$(CC) $(CFLAGS) $(LDFLAGS) -shared -Wl,-soname,$(SONAME) -Wl,--version-script=$(BUILT)/exports.map \
		-Wl,--whole-archive $(library) -Wl,--no-whole-archive -o $@

$(BUILT)/libhours_exchange.so: $(shared)
	ln -sf $(SONAME) $@

# Made anew each time, for PREFIX may be another.
.PHONY: $(BUILT)/hours_exchange.pc
$(BUILT)/hours_exchange.pc:
	@mkdir -p $(BUILT)
	@printf '%s\n' 'prefix=$(PREFIX)' 'includedir=$(INCLUDEDIR)' 'libdir=$(LIBDIR)' '' \
		'Name: hours_exchange' \
		'Description: Contract flying shared out: tickets, settlements, marks, accounts and open markets' \
		'Version: $(VERSION)' \
		'Cflags: -I$${includedir}' \
		'Libs: -L$${libdir} -lhours_exchange' >$@

to := $(DESTDIR)
module := $(PYTHONDIR)/hours_exchange

install: all
	$(INSTALL) -d $(to)$(BINDIR) $(to)$(INCLUDEDIR) $(to)$(LIBDIR)/pkgconfig $(to)$(MANDIR)/man1 $(to)$(MANDIR)/man3 $(to)$(module)
	$(INSTALL) -m 755 $(command) $(to)$(BINDIR)/exchange
	$(INSTALL) -m 644 include/hours_exchange.h $(to)$(INCLUDEDIR)/hours_exchange.h
	$(INSTALL) -m 644 $(library) $(to)$(LIBDIR)/libhours_exchange.a
	$(INSTALL) -m 755 $(shared) $(to)$(LIBDIR)/$(SONAME)
	ln -sf $(SONAME) $(to)$(LIBDIR)/libhours_exchange.so
	$(INSTALL) -m 644 $(BUILT)/hours_exchange.pc $(to)$(LIBDIR)/pkgconfig/hours_exchange.pc
	$(INSTALL) -m 644 man/exchange.1 $(to)$(MANDIR)/man1/exchange.1
	$(INSTALL) -m 644 man/hours_exchange.3 $(to)$(MANDIR)/man3/hours_exchange.3
	$(INSTALL) -m 644 python/hours_exchange/__init__.py python/hours_exchange/py.typed $(to)$(module)
	ln -sf $(LIBDIR)/$(SONAME) $(to)$(module)/$(SONAME)
	@echo "make: installed; the Python module is in $(PYTHONDIR)"

uninstall:
	rm -f $(to)$(BINDIR)/exchange $(to)$(INCLUDEDIR)/hours_exchange.h $(to)$(LIBDIR)/libhours_exchange.a \
		$(to)$(LIBDIR)/$(SONAME) $(to)$(LIBDIR)/libhours_exchange.so $(to)$(LIBDIR)/pkgconfig/hours_exchange.pc \
		$(to)$(MANDIR)/man1/exchange.1 $(to)$(MANDIR)/man3/hours_exchange.3
	rm -rf $(to)$(module)

quick-test: all
	cd bench && cargo test
	examples/run.sh
	HOURS_EXCHANGE_LIBRARY=$(CURDIR)/$(shared) PYTHONPATH=python $(PYTHON) -m unittest discover -s python/tests
	$(PYTHON) tests/program.py
	$(PYTHON) tests/readme.py
	tests/install.sh

test:
	.ci/run
	$(MAKE) quick-test

clean:
	rm -rf $(BUILT)
