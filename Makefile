.PHONY: run lib install check test bench
.DELETE_ON_ERROR:
# objects stay, and no rule says that it removes one
.SECONDARY:

include hosts/x86-64.mk

LIBRARY := target/lib/libtulpavice
HOSTS := hosts
HOST := target/host
SOURCES := $(shell find crates -name out -prune -o '(' -name '*.rt' -o -name '*.antt' ')' -print)
CFLAGS ?= -O2 -Wall -Wextra -Werror
COMPILE = $(CC) -std=c11 -Iinclude $(CFLAGS) -c -o $@
# whatever is compiled here waits for it: the header's structs are laid out as the library has them
LAYOUT := target/layout.o
VERSION := $(shell sed -n 's/^.define TULPAVICE_VERSION "\(.*\)"$$/\1/p' include/tulpavice.h)
# what a program that was built for one layout or one set of answers asks for when it is loaded, and no other
SONAME := libtulpavice.so.$(firstword $(subst ., ,$(VERSION)))

PREFIX ?= /usr/local
BINDIR ?= $(PREFIX)/bin
LIBDIR ?= $(PREFIX)/lib
INCLUDEDIR ?= $(PREFIX)/include
MANDIR ?= $(PREFIX)/share/man
INSTALL ?= install
FILLED_IN = sed -e 's|@VERSION@|$(VERSION)|' -e 's|@PREFIX@|$(PREFIX)|' -e 's|@LIBDIR@|$(subst $(PREFIX)/,$${prefix}/,$(LIBDIR))|' \
    -e 's|@INCLUDEDIR@|$(subst $(PREFIX)/,$${prefix}/,$(INCLUDEDIR))|'

# Document 000's worked example, as the notebook shows it.
run: $(HOST)/notebook
	@$(RUN) $<

# The library for C, and for whoever loads it.
lib: $(LIBRARY).a $(LIBRARY).so

# For packagers: PREFIX and the folders under it as users will have them, DESTDIR before them while a package is made.
install: lib $(HOST)/notebook
	$(INSTALL) -d "$(DESTDIR)$(BINDIR)" "$(DESTDIR)$(LIBDIR)/pkgconfig" "$(DESTDIR)$(INCLUDEDIR)" "$(DESTDIR)$(MANDIR)/man1"
	$(INSTALL) -m 755 $(HOST)/notebook "$(DESTDIR)$(BINDIR)/tulpavice-notebook"
	$(INSTALL) -m 644 $(LIBRARY).a "$(DESTDIR)$(LIBDIR)"
	$(INSTALL) -m 755 $(LIBRARY).so "$(DESTDIR)$(LIBDIR)/libtulpavice.so.$(VERSION)"
	ln -sf libtulpavice.so.$(VERSION) "$(DESTDIR)$(LIBDIR)/$(SONAME)"
	ln -sf $(SONAME) "$(DESTDIR)$(LIBDIR)/libtulpavice.so"
	$(INSTALL) -m 644 include/tulpavice.h "$(DESTDIR)$(INCLUDEDIR)"
	$(FILLED_IN) hosts/tulpavice.pc.in > "$(DESTDIR)$(LIBDIR)/pkgconfig/tulpavice.pc"
	$(FILLED_IN) hosts/notebook.1.in > "$(DESTDIR)$(MANDIR)/man1/tulpavice-notebook.1"
	chmod 644 "$(DESTDIR)$(LIBDIR)/pkgconfig/tulpavice.pc" "$(DESTDIR)$(MANDIR)/man1/tulpavice-notebook.1"

# The edit loop: audits the tree, proves what changed, and tries the edits of what differs from the last commit, or from BASE.
check:
	@python3 tests/check.py $(BASE)

# The gate.
test:
	@python3 tests/gate.py

# The library beside plain C on the same work.
bench: target/bench/bench
	@python3 bench/bench.py $(RUN) $<

# It is proved before it is compiled; what is proved is said crate by crate, and all of it where a proof fails.
$(LIBRARY).a: crates.txt $(SOURCES)
	@mkdir -p $(@D)
	@command -v rt > /dev/null || { echo 'rt, the command of the Rattle kit, is not on the path' >&2; exit 1; }
	@echo 'proving the library, and compiling it: from nothing it takes several minutes' >&2
	@{ cd crates/tulpavice && rt lib 2>&1; echo "rt lib: $$?"; } | awk -v all=target/prove.log '{ print > all } /^rt lib: 0$$/ { ok = proved } \
	    /^crate [a-z]+: / { crate = $$2; sub(/:/, "", crate) } \
	    /^logic=/ { proved = /^logic=proved /; print "  " crate (proved ? " proved" : " NOT PROVED") | "cat >&2"; fflush() } \
	    END { exit !ok }' || { cat target/prove.log; exit 1; }
	@cp crates/tulpavice/out/libtulpavice.a $@

# Its other name here is no symbolic link: rt refuses one anywhere in the checkout.
$(LIBRARY).so: $(LIBRARY).a include/tulpavice.h hosts/x86-64.mk
	@$(SHARED)
	@ln -f $@ $(@D)/$(SONAME)

$(LAYOUT): hosts/layout.c include/tulpavice.h
	@mkdir -p $(@D)
	@$(COMPILE) $<

$(HOST)/%.o: $(HOSTS)/%.c $(wildcard $(HOSTS)/*.h) $(LAYOUT)
	@mkdir -p $(@D)
	@$(COMPILE) $<

# A program is one file, and those that are named below. The library comes last: it gives what was asked for by then.
$(HOST)/%: $(HOST)/%.o $(LIBRARY).a
	@$(LINK) $(filter %.o,$^) $(filter %.a,$^) > $@.log 2>&1 || { cat $@.log; exit 1; }

ifeq ($(HOSTS),hosts)
$(HOST)/notebook: $(HOST)/words.o $(HOST)/store.o $(HOST)/sheet.o
endif

# Plain C has the table's figures from the data file.
target/bench/table.h: bench/table.py data/table-106-1.tsv
	@mkdir -p $(@D)
	@python3 $^ > $@

target/bench/%.o: bench/%.c $(wildcard bench/*.h) $(LAYOUT) target/bench/table.h
	@$(COMPILE) -Itarget/bench $<

target/bench/bench: $(patsubst bench/%.c,target/bench/%.o,$(wildcard bench/*.c)) $(LIBRARY).a
	@$(LINK) $^ > $@.log 2>&1 || { cat $@.log; exit 1; }

# The value of a variable: how a program is run, to whoever runs one.
print-%:
	@echo '$($*)'
