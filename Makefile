# make            proves every crate, then builds the library and the programs
# make proofs     proves every crate
# make run        proves and runs the program whelk, on a sample feed or on FEED=..
# make test       runs all tests; the last line is 'N passed, 0 failed'
# make tools      builds the tools, target/tools/whelk-import and whelk-why
# make install    puts library, header, programs and man pages below PREFIX=.., else /usr/local; DESTDIR=.. goes before each path
# make uninstall  removes what install puts there, with the same PREFIX and DESTDIR; folders stay
# make clean      removes all that was built: target/, target-tests/ and each crate's out/
# make help       prints these lines
.PHONY: all proofs test run tools install uninstall clean help
FEED ?= tests/program/sample.feed

PREFIX ?= /usr/local
prefix = $(PREFIX)
bindir = $(prefix)/bin
libdir = $(prefix)/lib
includedir = $(prefix)/include
mandir = $(prefix)/share/man
INSTALL ?= install

library = target/staticlib/libhost.a
shared = target/shared/libwhelkhollow.so
tools = target/tools/whelk-import target/tools/whelk-why
whelk = target/bin/whelk
header = include/whelkhollow.h
version = $(or $(shell sed -n 's/^.define WHELK_VERSION "\(.*\)".*/\1/p' $(header)),$(error $(header) has no WHELK_VERSION))
soname = libwhelkhollow.so.$(firstword $(subst ., ,$(version)))

all: proofs $(library) $(shared) $(tools) $(whelk)

proofs:
	rt all check

test:
	bash tests/run

# A feed's name may have any bytes: make takes it as it is, and the shell has it from its environment. Only blanks at the front of FEED=.. are cut, by
# make itself; put ./ before them.
run: override export FEED := $(value FEED)
run:
	@bash scripts/built whelk >&2
	@bash scripts/whelk <"$$FEED"

tools: $(tools)

# Two `rt` at a time would write the same files.
.NOTPARALLEL:
.DELETE_ON_ERROR:

# What is proved: all below crates/NAME but the edits that must fail and what rt makes. Folders stand for files that came or went.
proved := crates.txt $(shell find crates -mindepth 2 \( -name must-fail -o -name out \) -prune -o -print 2>/dev/null)

$(library): $(proved) scripts/built
	bash scripts/built host_c

# Where the program's own crates are as they were, rt leaves it as it is.
$(whelk): $(proved) scripts/built
	bash scripts/built whelk

$(shared): $(library) $(header) tools/shared tools/exports.map
	bash tools/shared $(soname)

$(tools): target/tools/%: $(library) $(header) tools/build tools/tool.h tools/%.c
	bash tools/build $*

# Install copies. It proves and builds only what isn't there, or is older than what it is made of.
quoted = '$(subst ','\'',$(1))'
bin = $(call quoted,$(DESTDIR)$(bindir))
lib = $(call quoted,$(DESTDIR)$(libdir))
headers = $(call quoted,$(DESTDIR)$(includedir))
man = $(call quoted,$(DESTDIR)$(mandir))
# A folder as whelkhollow.pc names it, over ${prefix}.
over = $(call quoted,$(1)=$(subst $(prefix),$${prefix},$($(1))))

install: $(library) $(shared) $(tools) $(whelk)
	@for folder in $(foreach f,bindir libdir includedir mandir,$(call quoted,$($(f)))); do \
	    case $$folder in /*) ;; *) echo "not from the root: $$folder" >&2; exit 1 ;; esac; done
	$(INSTALL) -d $(bin) $(lib)/pkgconfig $(headers) $(man)/man1 $(man)/man3
	$(INSTALL) -m 755 $(whelk) $(bin)/whelk
	for tool in $(notdir $(tools)); do $(INSTALL) -m 755 target/tools/$$tool.x86-64 $(bin)/$$tool || exit; done
	$(INSTALL) -m 644 $(library) $(lib)/libwhelkhollow.a
	$(INSTALL) -m 644 $(shared) $(lib)/libwhelkhollow.so.$(version)
	ln -sf libwhelkhollow.so.$(version) $(lib)/$(soname)
	ln -sf $(soname) $(lib)/libwhelkhollow.so
	$(INSTALL) -m 644 $(header) $(headers)/whelkhollow.h
	printf '%s\n' prefix=$(call quoted,$(prefix)) $(call over,libdir) $(call over,includedir) version=$(version) | \
	    cat - whelkhollow.pc.in | $(INSTALL) -m 644 /dev/stdin $(lib)/pkgconfig/whelkhollow.pc
	$(INSTALL) -m 644 man/whelk.1 man/whelk-import.1 man/whelk-why.1 $(man)/man1
	$(INSTALL) -m 644 man/whelkhollow.3 $(man)/man3

uninstall:
	rm -f $(bin)/whelk $(bin)/whelk-import $(bin)/whelk-why
	rm -f $(lib)/libwhelkhollow.a $(lib)/libwhelkhollow.so $(lib)/$(soname) $(lib)/libwhelkhollow.so.$(version)
	rm -f $(headers)/whelkhollow.h $(lib)/pkgconfig/whelkhollow.pc
	rm -f $(man)/man1/whelk.1 $(man)/man1/whelk-import.1 $(man)/man1/whelk-why.1 $(man)/man3/whelkhollow.3

clean:
	rm -rf target target-tests crates/*/out

help:
	@sed -n 's/^# //p; /^\.PHONY/q' Makefile
