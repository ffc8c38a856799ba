#: To use it
#:   make run        filters the strips under scans/ and lists Table A; proves the programs first, some 8 minutes on four cores, once
#:   make lib        build/libstrip.a, build/libstrip.so and build/strip.h, for C
#:   make install    header, libraries, strip.pc and programs under PREFIX (/usr/local), behind DESTDIR where it is given
#:   make uninstall  takes them away again
#:
#: To try it
#:   make test       the gate: every crate proved, every must-fail edit refused, every program run, and all of the next six; from nothing
#:                   40 minutes or so on four cores
#:   make examples   the header compiled as C and C++, the C examples run
#:   make python     the Python module beside a filter in plain Python
#:   make outside    the library, through its C interface, and the fitter's programs beside what was written separately from the rules
#:   make programs   the programs as a user meets them: options, faults, input in pieces, beside a filter in Python
#:   make installed  installs into a temporary folder, and builds an example by pkg-config
#:   make stack      the stack that each call takes, beside what the header states
#:   make bench      the speed of the engine and of the ranked window beside C loops, and the program's beside the engine; BEFORE=folder
#:                   takes the library of another commit in turn with this one
#:
#: To work on it
#:   make edits CRATE=name   tries one crate's must-fail edits: where each is refused, and whether that is at a fact
#:   make tidy       names in docs/PROMISES.md that do not exist, definitions that nothing uses
#:   make agree      what stands in several places and has one source, written anew where it differs
#:   make scan       makes the strips under scans/ again
#:   make clean      removes what was built; `make distclean` what was proved too

PREFIX = /usr/local
LIBDIR = $(PREFIX)/lib
DESTDIR =
PROGRAMS = stripfilter maketable showtable drops sametable listing
VERSION := $(shell sed -n 's/^\#define STRIP_VERSION "\(.*\)"/\1/p' include/strip.h)
SONAME = libstrip.so.$(firstword $(subst ., ,$(VERSION)))

.PHONY: help run lib install uninstall test examples python outside programs installed stack bench edits tidy agree scan clean distclean proved-programs
.DELETE_ON_ERROR:

help:
	@sed -n 's/^#: \{0,1\}//p' Makefile

run:
	@scripts/need.sh rt
	@scripts/prove.sh run run listing stripfilter
	@build/bin/stripfilter tables/even.table <scans/strip.pgm >build/strip-filtered.pgm
	@echo "the strip as it was scanned:    scans/strip.pgm"
	@echo "filtered by tables/even.table:  build/strip-filtered.pgm"
	@build/bin/stripfilter --rank 13 5 5 <scans/grit.pgm >build/grit-ranked.pgm
	@echo "a strip with grit:              scans/grit.pgm"
	@echo "by the median of 5 by 5:        build/grit-ranked.pgm"
	@if command -v python3 >/dev/null 2>&1; then \
	    for name in scans/strip build/strip-filtered scans/grit build/grit-ranked; do python3 scripts/png.py $$name.pgm build/$${name#*/}.png; done; \
	    echo "the same as PNG:                build/strip.png, build/strip-filtered.png, build/grit.png, build/grit-ranked.png"; \
	fi
	@echo "tables/a.table:"
	@build/bin/listing <tables/a.table

lib: build/libstrip.a build/libstrip.so build/strip.h

build/libstrip.a: crates.txt $(shell find crates -name out -prune -o \( -name '*.rt' -o -name '*.antt' \) -print)
	@scripts/need.sh rt
	@scripts/prove.sh lib lib capi
	@cp crates/capi/out/libcapi.a $@

build/libstrip.so: build/libstrip.a scripts/strip.map
	@scripts/need.sh gcc
	@gcc -shared -Wl,--whole-archive build/libstrip.a -Wl,--no-whole-archive -Wl,--version-script=scripts/strip.map -Wl,-soname,$(SONAME) -Wl,-z,defs -Wl,-z,relro -Wl,-z,now -o $@

build/strip.h: include/strip.h
	@mkdir -p build && cp $< $@

proved-programs:
	@scripts/need.sh rt
	@scripts/prove.sh programs run $(PROGRAMS)

install: lib proved-programs
	@install -d $(DESTDIR)$(PREFIX)/include $(DESTDIR)$(LIBDIR)/pkgconfig $(DESTDIR)$(PREFIX)/bin
	@install -m 644 include/strip.h $(DESTDIR)$(PREFIX)/include/strip.h
	@install -m 644 build/libstrip.a $(DESTDIR)$(LIBDIR)/libstrip.a
	@install -m 755 build/libstrip.so $(DESTDIR)$(LIBDIR)/libstrip.so.$(VERSION)
	@ln -sf libstrip.so.$(VERSION) $(DESTDIR)$(LIBDIR)/$(SONAME)
	@ln -sf $(SONAME) $(DESTDIR)$(LIBDIR)/libstrip.so
	@sed 's|@PREFIX@|$(PREFIX)|; s|@LIBDIR@|$(LIBDIR)|; s|@VERSION@|$(VERSION)|' strip.pc.in >build/strip.pc
	@install -m 644 build/strip.pc $(DESTDIR)$(LIBDIR)/pkgconfig/strip.pc
	@for name in $(PROGRAMS); do install -m 755 build/bin/$$name $(DESTDIR)$(PREFIX)/bin/$$name; done
	@echo "installed under $(DESTDIR)$(PREFIX)"

uninstall:
	@rm -f $(DESTDIR)$(PREFIX)/include/strip.h $(DESTDIR)$(LIBDIR)/libstrip.a $(DESTDIR)$(LIBDIR)/libstrip.so.$(VERSION) $(DESTDIR)$(LIBDIR)/$(SONAME) \
	    $(DESTDIR)$(LIBDIR)/libstrip.so $(DESTDIR)$(LIBDIR)/pkgconfig/strip.pc $(PROGRAMS:%=$(DESTDIR)$(PREFIX)/bin/%)

test:
	@scripts/need.sh rt gcc cargo python3
	@scripts/gate.sh

examples: lib
	@scripts/need.sh gcc
	@examples/check.sh

python: lib
	@scripts/need.sh python3
	@cd python && python3 -m unittest --quiet

# `make outside STRIP_LIB_DIR=folder` takes another library.
outside: lib proved-programs
	@scripts/need.sh cargo
	@$(if $(STRIP_LIB_DIR),STRIP_LIB_DIR=$(abspath $(STRIP_LIB_DIR)) )cargo run --release --offline --quiet --manifest-path tests/Cargo.toml

programs: proved-programs
	@scripts/need.sh python3
	@tests/programs.sh

installed: lib proved-programs
	@scripts/need.sh gcc
	@tests/installed.sh

stack: lib
	@scripts/need.sh gcc
	@scripts/stack.sh

bench: lib
	@scripts/need.sh gcc
	@scripts/prove.sh bench run stripfilter
	@gcc -O2 -Wall -Wextra -Ibuild bench/program.c build/libstrip.a -o build/bench-program
	@build/bench-program build/bin/stripfilter tables/a.table build
	@build/bench-program build/bin/stripfilter tables/even.table build
	@BEFORE="$(BEFORE)" bench/run.sh

edits:
	@scripts/need.sh rt python3
	@python3 scripts/edits.py $(CRATE)

tidy:
	@scripts/need.sh python3
	@python3 scripts/tidy.py

agree:
	@scripts/need.sh python3
	@python3 scripts/agree.py --write

scan:
	@scripts/need.sh python3
	@python3 scans/make.py

clean:
	@rm -rf build tests/target python/__pycache__ scripts/__pycache__

distclean: clean
	@rm -rf crates/*/out
