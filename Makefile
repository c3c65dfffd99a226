# Builds, installs and removes the planner: header, archive, shared library, pkg-config file, the command and its manual page.
# `make` proves and builds; `make install PREFIX=/usr/local` installs; `make uninstall` takes it away again.
PREFIX ?= /usr/local
DESTDIR ?=
CC ?= cc

VERSION := $(shell sed -n 's/^.define PLANNER_VERSION "\(.*\)"/\1/p' include/planner.h)
SONAME := libplanner.so.$(firstword $(subst ., ,$(VERSION)))
BUILD := target/install
ARCHIVE := target/staticlib/libplanner_c.a
COMMAND := target/release/shop

include := $(DESTDIR)$(PREFIX)/include
lib := $(DESTDIR)$(PREFIX)/lib
bin := $(DESTDIR)$(PREFIX)/bin
man := $(DESTDIR)$(PREFIX)/share/man/man1

.PHONY: all archive command install install-library install-command uninstall clean
all: $(BUILD)/$(SONAME) command

archive:
	tools/archive

$(ARCHIVE): archive

$(BUILD)/$(SONAME): $(ARCHIVE)
	mkdir -p $(BUILD)
	$(CC) -shared -Wl,-soname,$(SONAME) -Wl,--whole-archive $(ARCHIVE) -Wl,--no-whole-archive -o $@

command: archive
	cargo build --quiet --release --offline --package shop

install: install-library install-command

install-library: $(BUILD)/$(SONAME)
	install -d $(include) $(lib)/pkgconfig
	install -m 644 include/planner.h include/planner_blocks.h $(include)
	install -m 644 $(ARCHIVE) $(lib)/libplanner.a
	install -m 755 $(BUILD)/$(SONAME) $(lib)/$(SONAME)
	ln -sf $(SONAME) $(lib)/libplanner.so
	sed -e 's|@PREFIX@|$(PREFIX)|' -e 's|@VERSION@|$(VERSION)|' packaging/planner.pc.in > $(lib)/pkgconfig/planner.pc

install-command: command
	install -d $(bin) $(man)
	install -m 755 $(COMMAND) $(bin)/cutplan
	install -m 644 packaging/cutplan.1 $(man)/cutplan.1

uninstall:
	rm -f $(include)/planner.h $(include)/planner_blocks.h
	rm -f $(lib)/libplanner.a $(lib)/$(SONAME) $(lib)/libplanner.so $(lib)/pkgconfig/planner.pc
	rm -f $(bin)/cutplan $(man)/cutplan.1

clean:
	rm -rf $(BUILD)
