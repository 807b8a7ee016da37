# Builds, installs and tests Taplinen. `make help` lists the targets.

PREFIX ?= /usr/local
BINDIR ?= $(PREFIX)/bin
LIBDIR ?= $(PREFIX)/lib
INCLUDEDIR ?= $(PREFIX)/include
MANDIR ?= $(PREFIX)/share/man
PKGCONFIGDIR ?= $(LIBDIR)/pkgconfig
DESTDIR ?=

CFLAGS ?= -O2 -g -Wall -Wextra -Wpedantic
INSTALL ?= install
LDCONFIG ?= ldconfig

# The version is that of the header. Its first number is that of the shared library's interface.
VERSION := $(shell sed -n 's/^.define TAPLINEN_VERSION "\(.*\)"$$/\1/p' include/taplinen.h)
SONAME := libtaplinen.so.$(firstword $(subst ., ,$(VERSION)))

STATIC := target/staticlib/libtaplinen.a
SHARED := target/lib/libtaplinen.so.$(VERSION)
TOOL := target/taplinen
DUMP := target/bin/dcdump
EXAMPLES := $(patsubst examples/%.c,target/%,$(wildcard examples/*.c))

# What is proved. A file that is added or removed changes its directory, so the directories are in the list.
CRATES := crates.txt $(shell find crates -mindepth 2 \( -name must-fail -o -name out \) -prune -o -print)

COMPILE = $(CC) -std=gnu11 -Iinclude $(CPPFLAGS) $(CFLAGS)

.DELETE_ON_ERROR:
.PHONY: all built install uninstall test check compare bench cost dump examples clean help

all: built ## prove and build the libraries, taplinen and dcdump (the default)
	@echo "Ready: the libraries $(STATIC) and $(SHARED), the programs $(TOOL) and $(DUMP)."

built: $(STATIC) $(SHARED) $(TOOL) $(DUMP)

$(STATIC): $(CRATES)
	@scripts/build library

$(DUMP): $(CRATES)
	@scripts/build program

# -z text refuses text relocations.
$(SHARED): $(STATIC) taplinen.map Makefile
	@mkdir -p $(@D)
	$(CC) -shared $(LDFLAGS) -Wl,-soname,$(SONAME) -Wl,--version-script=taplinen.map -Wl,-z,defs -Wl,-z,text -Wl,-z,noexecstack \
	  -Wl,--whole-archive $(STATIC) -Wl,--no-whole-archive -o $@
	ln -sf $(@F) $(@D)/$(SONAME)
	ln -sf $(SONAME) $(@D)/libtaplinen.so

$(TOOL): $(wildcard tool tool/*.c tool/*.h) include/taplinen.h $(STATIC) Makefile
	$(COMPILE) $(LDFLAGS) $(filter %.c,$^) $(STATIC) $(LDLIBS) -o $@

$(EXAMPLES): target/%: examples/%.c include/taplinen.h $(STATIC)
	$(COMPILE) -pthread $(LDFLAGS) $< $(STATIC) $(LDLIBS) -o $@

# The loader looks into these two directories by itself, through a cache that ldconfig writes.
RUN_LDCONFIG = @case "$(DESTDIR):$(PREFIX):$$(id -u)" in :/usr:0|:/usr/local:0) $(LDCONFIG) || true ;; esac

install: built ## install under PREFIX (/usr/local), below DESTDIR if it is set
	$(INSTALL) -d "$(DESTDIR)$(BINDIR)" "$(DESTDIR)$(LIBDIR)" "$(DESTDIR)$(INCLUDEDIR)" "$(DESTDIR)$(PKGCONFIGDIR)" \
	  "$(DESTDIR)$(MANDIR)/man1" "$(DESTDIR)$(MANDIR)/man3"
	$(INSTALL) -m 755 $(TOOL) $(DUMP) "$(DESTDIR)$(BINDIR)"
	$(INSTALL) -m 644 $(STATIC) "$(DESTDIR)$(LIBDIR)"
	$(INSTALL) -m 755 $(SHARED) "$(DESTDIR)$(LIBDIR)"
	ln -sf $(notdir $(SHARED)) "$(DESTDIR)$(LIBDIR)/$(SONAME)"
	ln -sf $(SONAME) "$(DESTDIR)$(LIBDIR)/libtaplinen.so"
	$(INSTALL) -m 644 include/taplinen.h "$(DESTDIR)$(INCLUDEDIR)"
	@rm -f target/taplinen.pc
	sed -e 's|@PREFIX@|$(PREFIX)|' -e 's|@INCLUDEDIR@|$(INCLUDEDIR:$(PREFIX)/%=$${prefix}/%)|' \
	  -e 's|@LIBDIR@|$(LIBDIR:$(PREFIX)/%=$${prefix}/%)|' -e 's|@VERSION@|$(VERSION)|' taplinen.pc.in > target/taplinen.pc
	$(INSTALL) -m 644 target/taplinen.pc "$(DESTDIR)$(PKGCONFIGDIR)"
	$(INSTALL) -m 644 man/taplinen.1 man/dcdump.1 "$(DESTDIR)$(MANDIR)/man1"
	$(INSTALL) -m 644 man/taplinen.3 "$(DESTDIR)$(MANDIR)/man3"
	$(RUN_LDCONFIG)

uninstall: ## remove what `make install` with the same variables has installed
	rm -f "$(DESTDIR)$(BINDIR)/taplinen" "$(DESTDIR)$(BINDIR)/dcdump" "$(DESTDIR)$(LIBDIR)/libtaplinen.a" \
	  "$(DESTDIR)$(LIBDIR)/$(notdir $(SHARED))" "$(DESTDIR)$(LIBDIR)/$(SONAME)" "$(DESTDIR)$(LIBDIR)/libtaplinen.so" \
	  "$(DESTDIR)$(INCLUDEDIR)/taplinen.h" "$(DESTDIR)$(PKGCONFIGDIR)/taplinen.pc" "$(DESTDIR)$(MANDIR)/man1/taplinen.1" \
	  "$(DESTDIR)$(MANDIR)/man1/dcdump.1" "$(DESTDIR)$(MANDIR)/man3/taplinen.3"
	$(RUN_LDCONFIG)

test: ## run all proofs and all tests
	.ci/run

check: ## prove the crate CRATE and what it needs; without CRATE all crates
	$(if $(CRATE),cd crates/$(CRATE) && rt check,rt all check)

compare: $(STATIC) ## compare the library with the second program, that of compare/, for ten minutes (needs cargo)
	cd compare && TAPLINEN_LIB=$(CURDIR)/target/staticlib cargo build --quiet --release --offline -p compare --features rattle
	compare/target/release/compare --full --seconds 600

bench: $(STATIC) ## measure the speed on files of 8, 64 and 256 MB (needs cargo)
	cd compare && TAPLINEN_LIB=$(CURDIR)/target/staticlib cargo build --quiet --release --offline -p bench --features rattle
	compare/target/release/bench

cost: $(TOOL) ## count the instructions per byte as files grow (needs cargo and valgrind)
	scripts/cost

FILE ?= samples/shop.dc
dump: $(DUMP) ## print FILE (at most 32,768 bytes) with dcdump
	@[ -f "$(FILE)" ] && [ -r "$(FILE)" ] || { echo "make dump: cannot read the file $(FILE)" >&2; exit 1; }
	@scripts/frames "$(FILE)" | $(DUMP)

examples: $(EXAMPLES) ## build examples/NAME.c as target/NAME

clean: ## remove all that was built, the proofs as well
	rm -rf target compare/target crates/*/out

help: ## list the targets
	@awk -F ':.*## ' '/^[a-z]+:.*## / { printf "make %-10s %s\n", $$1, $$2 }' Makefile
	@echo "Variables: CC CPPFLAGS CFLAGS LDFLAGS LDLIBS DESTDIR PREFIX BINDIR LIBDIR INCLUDEDIR MANDIR PKGCONFIGDIR INSTALL LDCONFIG"
