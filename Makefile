# make archive                      out/libcoarse.a, proved (tools/archive)
# make install PREFIX=DIR           headers, archive, shared library, licences, coarse.pc and a CMake package; DESTDIR=DIR puts all of it below another root
# make uninstall PREFIX=DIR
# make check                        the linking test (.ci/link)
# ARCHIVE=FILE names another archive, which is installed as it is: where there is no kit to prove one with.
.POSIX:
.PHONY: help archive check install uninstall

PREFIX = /usr/local
DESTDIR =
INCLUDEDIR = $(PREFIX)/include
LIBDIR = $(PREFIX)/lib
DOCDIR = $(PREFIX)/share/doc/coarse
ARCHIVE = out/libcoarse.a
CC = cc
PKG = $(LIBDIR)/pkgconfig
CMAKE = $(LIBDIR)/cmake/Coarse
HEADERS = include/coarse.h include/coarse_bucketer.h include/coarse_recorder.h include/coarse_version.h
DOCS = NOTICE LICENSE-APACHE LICENSE-MIT CHANGELOG.md

help:
	@sed -n '/^#/!q;s/^# //p' Makefile

# Where nothing has changed since, tools/archive makes nothing.
archive:
	@tools/archive

out/libcoarse.a: archive

check:
	bash .ci/link

install: $(ARCHIVE)
	@CC="$(CC)" LDFLAGS="$(LDFLAGS)" PREFIX="$(PREFIX)" DESTDIR="$(DESTDIR)" INCLUDEDIR="$(INCLUDEDIR)" LIBDIR="$(LIBDIR)" DOCDIR="$(DOCDIR)" PKG="$(PKG)" \
	  CMAKE="$(CMAKE)" HEADERS="$(HEADERS)" DOCS="$(DOCS)" ARCHIVE="$(ARCHIVE)" sh install/install.sh

uninstall:
	for file in $(HEADERS); do rm -f "$(DESTDIR)$(INCLUDEDIR)/$${file##*/}"; done
	rm -f "$(DESTDIR)$(LIBDIR)"/libcoarse.a "$(DESTDIR)$(LIBDIR)"/libcoarse.so "$(DESTDIR)$(LIBDIR)"/libcoarse.so.* "$(DESTDIR)$(PKG)/coarse.pc"
	rm -rf "$(DESTDIR)$(CMAKE)" "$(DESTDIR)$(DOCDIR)"
