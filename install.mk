# make install, make uninstall   header, archive, shared library, command, pkg-config file and man pages, under $(DESTDIR)$(PREFIX).
#                                Folders that are empty afterwards stay.
# make test-install              installs into a temporary folder and uses what is there
#
# The Makefile that includes this has LIB, HEADER and COMMAND, and rules for the program of README.md in OUT.

PREFIX = /usr/local
prefix = $(PREFIX)
bindir = $(prefix)/bin
includedir = $(prefix)/include
libdir = $(prefix)/lib
pkgconfigdir = $(libdir)/pkgconfig
mandir = $(prefix)/share/man

INSTALL = install
INSTALL_PROGRAM = $(INSTALL) -m 755
INSTALL_DATA = $(INSTALL) -m 644
LDCONFIG = ldconfig

# the version stands in the header alone
VERSION := $(shell sed -n 's/^#define TAMPERMAUVE_VERSION "\(.*\)"$$/\1/p' $(HEADER))
SO = libtampermauve.so
SONAME = $(SO).$(firstword $(subst ., ,$(VERSION)))
SHARED = $(dir $(LIB))$(SO).$(VERSION)

# further names of the page of the calls
PAGES_3 = tampermauve_check.3 tampermauve_run.3 tampermauve_run_all.3

INSTALLED = $(bindir)/tampermauve $(includedir)/tampermauve.h \
    $(libdir)/libtampermauve.a $(libdir)/$(SO).$(VERSION) $(libdir)/$(SONAME) $(libdir)/$(SO) $(pkgconfigdir)/tampermauve.pc \
    $(mandir)/man1/tampermauve.1 $(mandir)/man3/tampermauve.3 $(PAGES_3:%=$(mandir)/man3/%) $(mandir)/man5/tampermauve-plan.5

# ---- the shared library, of the archive's code

lib: $(SHARED)

$(SHARED): $(LIB) $(HEADER) packaging/exports.map install.mk
	$(CC) -shared -Wl,-soname,$(SONAME) -Wl,-z,defs -Wl,--version-script=packaging/exports.map -Wl,--no-undefined-version \
	    -Wl,--whole-archive $(LIB) -Wl,--no-whole-archive -o $@

# ---- install

# Run where the files are at their place, and not in a folder from which they are moved; a user who may not run it can do without.
USE_LDCONFIG = @[ -n "$(DESTDIR)" ] || $(LDCONFIG) || echo "$@: ldconfig failed, which matters only if $(libdir) is a folder of the system"

# a folder, as the pkg-config file names it: below ${prefix} where it lies there
below_prefix = $(patsubst $(prefix)/%,$${prefix}/%,$(1))

.PHONY: install
install: $(COMMAND) $(HEADER) $(LIB) $(SHARED)
	$(INSTALL) -d $(foreach folder,$(sort $(dir $(INSTALLED))),"$(DESTDIR)$(folder)")
	$(INSTALL_PROGRAM) $(COMMAND) "$(DESTDIR)$(bindir)/tampermauve"
	$(INSTALL_DATA) $(HEADER) "$(DESTDIR)$(includedir)/tampermauve.h"
	$(INSTALL_DATA) $(LIB) "$(DESTDIR)$(libdir)/libtampermauve.a"
	$(INSTALL_DATA) $(SHARED) "$(DESTDIR)$(libdir)/$(SO).$(VERSION)"
	ln -sf $(SO).$(VERSION) "$(DESTDIR)$(libdir)/$(SONAME)"
	ln -sf $(SONAME) "$(DESTDIR)$(libdir)/$(SO)"
	sed -e 's|@prefix@|$(prefix)|' -e 's|@includedir@|$(call below_prefix,$(includedir))|' \
	    -e 's|@libdir@|$(call below_prefix,$(libdir))|' -e 's|@version@|$(VERSION)|' packaging/tampermauve.pc.in | \
	    $(INSTALL_DATA) /dev/stdin "$(DESTDIR)$(pkgconfigdir)/tampermauve.pc"
	$(INSTALL_DATA) man/tampermauve.1 "$(DESTDIR)$(mandir)/man1/tampermauve.1"
	$(INSTALL_DATA) man/tampermauve.3 "$(DESTDIR)$(mandir)/man3/tampermauve.3"
	for page in $(PAGES_3); do ln -sf tampermauve.3 "$(DESTDIR)$(mandir)/man3/$$page" || exit 1; done
	$(INSTALL_DATA) man/tampermauve-plan.5 "$(DESTDIR)$(mandir)/man5/tampermauve-plan.5"
	$(USE_LDCONFIG)

.PHONY: uninstall
uninstall:
	rm -f $(foreach file,$(INSTALLED),"$(DESTDIR)$(file)")
	$(USE_LDCONFIG)

.PHONY: test-install
test-install: $(COMMAND) $(LIB) $(SHARED) $(OUT)/readme.c $(OUT)/readme.expected
	tests/install.sh LIB=$(LIB) COMMAND=$(COMMAND)
