# Installing. PREFIX is where the files will be found, DESTDIR a folder to put before it while they are packed.
PREFIX := /usr/local
BINDIR := $(PREFIX)/bin
LIBDIR := $(PREFIX)/lib
INCLUDEDIR := $(PREFIX)/include
MANDIR := $(PREFIX)/share/man
PKGCONFIGDIR := $(LIBDIR)/pkgconfig

# Each call has its page by name.
CALL_PAGES := $(CALLS:%=$(MANDIR)/man3/%.3)

INSTALLED := $(BINDIR)/shares $(BINDIR)/why $(BINDIR)/textform $(LIBDIR)/libshares.a $(INCLUDEDIR)/shares.h $(PKGCONFIGDIR)/shares.pc \
	$(MANDIR)/man1/shares.1 $(MANDIR)/man1/why.1 $(MANDIR)/man1/textform.1 $(MANDIR)/man3/shares.3 $(CALL_PAGES)

install: all
	@install -D -m 755 $(SHARES) $(DESTDIR)$(BINDIR)/shares
	@install -D -m 755 $(WHY) $(DESTDIR)$(BINDIR)/why
	@install -D -m 755 textform/target/release/textform $(DESTDIR)$(BINDIR)/textform
	@install -D -m 644 $(ARCHIVE) $(DESTDIR)$(LIBDIR)/libshares.a
	@install -D -m 644 include/shares.h $(DESTDIR)$(INCLUDEDIR)/shares.h
	@install -D -m 644 man/shares.1 $(DESTDIR)$(MANDIR)/man1/shares.1
	@install -D -m 644 man/why.1 $(DESTDIR)$(MANDIR)/man1/why.1
	@install -D -m 644 man/textform.1 $(DESTDIR)$(MANDIR)/man1/textform.1
	@install -D -m 644 man/shares.3 $(DESTDIR)$(MANDIR)/man3/shares.3
	@for page in $(CALL_PAGES); do ln -sf shares.3 $(DESTDIR)$$page; done
	@install -d $(DESTDIR)$(PKGCONFIGDIR)
	@sed -e 's|@PREFIX@|$(abspath $(PREFIX))|' -e 's|@INCLUDEDIR@|$(abspath $(INCLUDEDIR))|' -e 's|@LIBDIR@|$(abspath $(LIBDIR))|' \
		-e 's|@VERSION@|$(VERSION)|' shares.pc.in > $(DESTDIR)$(PKGCONFIGDIR)/shares.pc
	@chmod 644 $(DESTDIR)$(PKGCONFIGDIR)/shares.pc

uninstall:
	@rm -f $(INSTALLED:%=$(DESTDIR)%)

# Installs into a folder of its own and uses what is there as a new user would.
installed:
	@tests/installed/check
