# Builds and installs the library, its header and the program.
#
#   make                          the archive, the shared library and the program, in build/, with its manual page and completions
#   make check                    all tests: .ci/run
#   make install PREFIX= DESTDIR= what make has built, where packages expect it (PREFIX is /usr/local)
#   make uninstall PREFIX= DESTDIR=
#
# The library is proved before it is compiled, which takes the kit (rt) and some minutes; make install takes neither.

PREFIX ?= /usr/local
DESTDIR ?=
BINDIR ?= $(PREFIX)/bin
LIBDIR ?= $(PREFIX)/lib
INCLUDEDIR ?= $(PREFIX)/include
DATADIR ?= $(PREFIX)/share
PKGCONFIGDIR ?= $(LIBDIR)/pkgconfig
MANDIR ?= $(DATADIR)/man/man1
BASHDIR ?= $(DATADIR)/bash-completion/completions
ZSHDIR ?= $(DATADIR)/zsh/site-functions
FISHDIR ?= $(DATADIR)/fish/vendor_completions.d
INSTALL ?= install

VERSION := $(shell cat VERSION)
SONAME := libspritbobbin.so.$(firstword $(subst ., ,$(VERSION)))
SHARED := libspritbobbin.so.$(VERSION)
BUILD := build
SOURCES := crates.txt $(shell find crates -name out -prune -o \( -name '*.rt' -o -name '*.antt' \) -print)
PROGRAM := Cargo.lock $(shell find rust program -name '*.rs' -o -name Cargo.toml)

.PHONY: all check install uninstall clean
all: $(BUILD)/libspritbobbin.a $(BUILD)/$(SHARED) $(BUILD)/spritbobbin

$(BUILD)/libspritbobbin.a: $(SOURCES)
	tools/build-program
	mkdir -p $(BUILD)
	cp target/native/libspritbobbin.a $@

# Every function of the archive and no other symbol: tests/package looks.
$(BUILD)/$(SHARED): $(BUILD)/libspritbobbin.a
	$(CC) -shared -Wl,-soname,$(SONAME) -Wl,--no-undefined -o $@ -Wl,--whole-archive $< -Wl,--no-whole-archive

$(BUILD)/spritbobbin: $(BUILD)/libspritbobbin.a $(PROGRAM)
	tools/build-program
	cp target/program/release/spritbobbin $@
	$@ manual > $(BUILD)/spritbobbin.1
	for shell in bash zsh fish; do $@ completions $$shell > $(BUILD)/spritbobbin.$$shell; done

check:
	.ci/run

install:
	$(INSTALL) -d $(DESTDIR)$(BINDIR) $(DESTDIR)$(LIBDIR) $(DESTDIR)$(INCLUDEDIR) $(DESTDIR)$(PKGCONFIGDIR) $(DESTDIR)$(MANDIR) \
	    $(DESTDIR)$(BASHDIR) $(DESTDIR)$(ZSHDIR) $(DESTDIR)$(FISHDIR)
	$(INSTALL) -m 755 $(BUILD)/spritbobbin $(DESTDIR)$(BINDIR)
	$(INSTALL) -m 644 $(BUILD)/spritbobbin.1 $(DESTDIR)$(MANDIR)
	gzip -9nf $(DESTDIR)$(MANDIR)/spritbobbin.1
	$(INSTALL) -m 644 $(BUILD)/spritbobbin.bash $(DESTDIR)$(BASHDIR)/spritbobbin
	$(INSTALL) -m 644 $(BUILD)/spritbobbin.zsh $(DESTDIR)$(ZSHDIR)/_spritbobbin
	$(INSTALL) -m 644 $(BUILD)/spritbobbin.fish $(DESTDIR)$(FISHDIR)/spritbobbin.fish
	$(INSTALL) -m 644 $(BUILD)/libspritbobbin.a $(DESTDIR)$(LIBDIR)
	$(INSTALL) -m 644 $(BUILD)/$(SHARED) $(DESTDIR)$(LIBDIR)
	ln -sf $(SHARED) $(DESTDIR)$(LIBDIR)/$(SONAME)
	ln -sf $(SONAME) $(DESTDIR)$(LIBDIR)/libspritbobbin.so
	$(INSTALL) -m 644 include/spritbobbin.h $(DESTDIR)$(INCLUDEDIR)
	sed -e 's|@PREFIX@|$(PREFIX)|' -e 's|@LIBDIR@|$(LIBDIR)|' -e 's|@INCLUDEDIR@|$(INCLUDEDIR)|' -e 's|@VERSION@|$(VERSION)|' \
	    spritbobbin.pc.in > $(DESTDIR)$(PKGCONFIGDIR)/spritbobbin.pc
	chmod 644 $(DESTDIR)$(PKGCONFIGDIR)/spritbobbin.pc

uninstall:
	rm -f $(DESTDIR)$(LIBDIR)/libspritbobbin.a $(DESTDIR)$(LIBDIR)/$(SHARED) $(DESTDIR)$(LIBDIR)/$(SONAME) $(DESTDIR)$(LIBDIR)/libspritbobbin.so
	rm -f $(DESTDIR)$(INCLUDEDIR)/spritbobbin.h $(DESTDIR)$(PKGCONFIGDIR)/spritbobbin.pc $(DESTDIR)$(BINDIR)/spritbobbin
	rm -f $(DESTDIR)$(MANDIR)/spritbobbin.1.gz $(DESTDIR)$(BASHDIR)/spritbobbin $(DESTDIR)$(ZSHDIR)/_spritbobbin $(DESTDIR)$(FISHDIR)/spritbobbin.fish

clean:
	rm -rf $(BUILD)
