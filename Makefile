# The library for C and Rust consoles: build, install, tests of the boundary, benchmark. The proofs are rt's (see .ci/run).
# `make help` says what can be made.

PREFIX ?= /usr/local
CC = gcc
CXX = g++
CFLAGS = -std=c11 -O1 -g -Wall -Wextra -Wpedantic -Werror
# of what is installed
LIBRARY_CFLAGS = -std=c11 -O2 -fPIC -Wall -Wextra -Wpedantic

HEADER = console/include/nuggetbay.h
version = $(shell sed -n 's/^.define NB_VERSION_$(1) //p' $(HEADER))
MAJOR := $(call version,MAJOR)
VERSION := $(MAJOR).$(call version,MINOR).$(call version,PATCH)

MADE = target/console
PROVED = target/staticlib/libnuggetbay.a
ARCHIVE = $(MADE)/libnuggetbay.a
SONAME = libnuggetbay.so.$(MAJOR)
SHARED = $(MADE)/libnuggetbay.so.$(VERSION)
PROGRAM = $(MADE)/nuggetbay-case
PROVED_PROGRAM = target/bin/case
CALLS = $(MADE)/calls
SOURCES := crates.txt $(shell find crates -name out -prune -o \( -name '*.rt' -o -name '*.antt' \) -print)
CARGO = cd console && cargo
COMMA = ,
FAULTS = a b c m t f r n p A B C D j o z d s v l e k g h i q w x y H I Q W X Y

# Where the installed files stand. A space or another character that a shell or pkg-config takes apart is refused before anything is
# made.
WHERE := $(if $(PREFIX),$(if $(filter /%,$(firstword $(PREFIX))),$(PREFIX),$(CURDIR)/$(PREFIX)))
ifneq ($(filter install uninstall,$(MAKECMDGOALS)),)
unfit := $(DESTDIR)$(WHERE)
$(foreach character,a b c d e f g h i j k l m n o p q r s t u v w x y z A B C D E F G H I J K L M N O P Q R S T U V W X Y Z \
    0 1 2 3 4 5 6 7 8 9 / . _ + @ : -,$(eval unfit := $$(subst $(character),,$$(unfit))))
ifneq ($(unfit),)
$(error PREFIX and DESTDIR may have letters, digits and / . _ + @ : - and nothing else: '$(DESTDIR)$(WHERE)')
endif
endif
INTO = $(DESTDIR)$(WHERE)
INSTALLED = lib/libnuggetbay.a lib/libnuggetbay.so.$(VERSION) lib/$(SONAME) lib/libnuggetbay.so lib/pkgconfig/nuggetbay.pc \
    include/nuggetbay.h bin/nuggetbay-case share/nuggetbay/rust

.PHONY: all help install uninstall clean bench trade-off-tables test-boundary test-declarations test-stack test-lent test-valgrind \
    test-faults test-program test-install test-rust test-bench
.DELETE_ON_ERROR:

all: $(ARCHIVE) $(SHARED) $(PROGRAM)

help:
	@echo 'make                      the library, static and shared, and the program nuggetbay-case, in $(MADE)'
	@echo 'make install PREFIX=DIR   library, header, pkg-config file, Rust package and program in DIR (default /usr/local)'
	@echo 'make uninstall PREFIX=DIR removes what install put there'
	@echo 'make clean                removes all that was made'
	@echo 'make test-boundary        what is declared for C, Rust and Python against the library; its calls against the checker, under'
	@echo '                          unreadable memory and under valgrind; its stack; the programs; what is installed; Rust; the benchmark compiled'
	@echo 'make bench                the library against obvious and tuned Rust'
	@echo 'make trade-off-tables     prints the tables of greatest speeds and masses, as docs/TRADE_OFFS.md has them'
	@echo 'bash .ci/run              all tests, the proofs among them'

$(MADE):
	mkdir -p $@

# rt lib proves the library and the crates below it before it builds
$(PROVED): $(SOURCES)
	mkdir -p $(@D)
	cd crates/nuggetbay && rt lib
	cp crates/nuggetbay/out/libnuggetbay.a $@

# after the library, so that rt runs once at a time
$(PROVED_PROGRAM): $(SOURCES) | $(PROVED)
	mkdir -p $(@D)
	cd crates/case && rt run <stdin >$(CURDIR)/$@.log || { cat $(CURDIR)/$@.log; exit 1; }
	cp crates/case/out/case $@

$(MADE)/messages.o: console/library/messages.c $(HEADER) | $(MADE)
	$(CC) $(LIBRARY_CFLAGS) -Iconsole/include -c $< -o $@

$(ARCHIVE): $(PROVED) $(MADE)/messages.o
	cp $(PROVED) $@
	ar rs $@ $(MADE)/messages.o

# and a copy by the plain name: rt ci refuses links in the checkout
$(SHARED): $(ARCHIVE) console/library/exports.map
	$(CC) -shared -o $@ -Wl,-soname,$(SONAME) -Wl,--version-script=console/library/exports.map -Wl,-z,relro,-z,now,-z,defs \
	    -Wl,--whole-archive $(ARCHIVE) -Wl,--no-whole-archive
	cp $@ $(MADE)/libnuggetbay.so

$(PROGRAM): console/program/nuggetbay-case.c $(ARCHIVE) $(HEADER)
	$(CC) $(LIBRARY_CFLAGS) -D_DEFAULT_SOURCE -Iconsole/include $< $(ARCHIVE) -o $@

# the examples: case for console/run-case, the others for README
$(addprefix $(MADE)/,$(addsuffix -in-words,case high_angle descent trade_off)): $(MADE)/%-in-words: console/examples/%.c $(ARCHIVE) $(HEADER)
	$(CC) $(CFLAGS) -Iconsole/include $< $(ARCHIVE) -o $@

$(MADE)/trade_off_tables: console/examples/trade_off_tables.c $(ARCHIVE) $(HEADER)
	$(CC) $(CFLAGS) -Iconsole/include $< $(ARCHIVE) -o $@

trade-off-tables: $(MADE)/trade_off_tables
	@$(MADE)/trade_off_tables

install: all
	install -d '$(INTO)/lib/pkgconfig' '$(INTO)/include' '$(INTO)/bin' '$(INTO)/share/nuggetbay/rust/src'
	install -m 644 $(ARCHIVE) '$(INTO)/lib/libnuggetbay.a'
	install -m 755 $(SHARED) '$(INTO)/lib/libnuggetbay.so.$(VERSION)'
	ln -sf libnuggetbay.so.$(VERSION) '$(INTO)/lib/$(SONAME)'
	ln -sf $(SONAME) '$(INTO)/lib/libnuggetbay.so'
	install -m 644 $(HEADER) '$(INTO)/include/nuggetbay.h'
	sed -e 's,@PREFIX@,$(WHERE),' -e 's,@VERSION@,$(VERSION),' console/nuggetbay.pc.in >$(MADE)/nuggetbay.pc
	install -m 644 $(MADE)/nuggetbay.pc '$(INTO)/lib/pkgconfig/nuggetbay.pc'
	install -m 644 console/rust/Cargo.toml console/rust/build.rs '$(INTO)/share/nuggetbay/rust'
	install -m 644 console/rust/src/*.rs '$(INTO)/share/nuggetbay/rust/src'
	install -m 755 $(PROGRAM) '$(INTO)/bin/nuggetbay-case'
	@echo 'installed in $(INTO). So that programs find the shared library: ldconfig, or LD_LIBRARY_PATH=$(WHERE)/lib'

uninstall:
	rm -rf $(addprefix $(INTO)/,$(INSTALLED))
	rmdir $(INTO)/share/nuggetbay 2>/dev/null || true

clean:
	rm -rf target crates/*/out .ci/__pycache__ checker/__pycache__ console/tests/__pycache__

# ---- the boundary

test-boundary: test-declarations test-stack test-lent test-faults test-valgrind test-program test-install test-rust test-bench
	@echo 'test-boundary: all passed'

# every exported struct and function against header, Rust package and checker; first that the comparisons notice a difference
test-declarations:
	python3 -m unittest discover --start-directory console/tests
	python3 console/tests/declarations.py

$(MADE)/stack-used: console/tests/stack_used.c $(HEADER) $(ARCHIVE)
	$(CC) $(CFLAGS) -Wl,-z,now -Iconsole/include console/tests/stack_used.c $(ARCHIVE) -o $@

# the bytes of stack that the header says
test-stack: $(ARCHIVE) $(MADE)/stack-used
	python3 console/tests/stack.py $(ARCHIVE) $(MADE)/stack-used

$(CALLS): console/tests/boundary_calls.py $(addprefix checker/,$(addsuffix .py,ground_risk library random_cases flagged_aircraft \
    high_angle_aircraft high_angle_points descent_aircraft descent_points trade_off_aircraft trade_off_tables area_route)) | $(MADE)
	python3 console/tests/boundary_calls.py $@

$(MADE)/boundary: console/tests/boundary.c $(HEADER) $(ARCHIVE)
	$(CC) $(CFLAGS) -Iconsole/include console/tests/boundary.c $(ARCHIVE) -o $@

$(MADE)/boundary-faults: console/tests/boundary.c console/tests/boundary_faults.c $(HEADER) $(ARCHIVE)
	$(CC) $(CFLAGS) $(addprefix -Wl$(COMMA)--wrap=nb_,case sheet high_angle descent greatest_speed greatest_mass) -Iconsole/include \
	    console/tests/boundary.c console/tests/boundary_faults.c $(ARCHIVE) -o $@

# every lent buffer against unreadable memory on both sides, and NULL where nothing is lent
test-lent: $(MADE)/boundary $(CALLS)
	$(MADE)/boundary $(CALLS)

test-valgrind: $(MADE)/boundary $(CALLS)
	valgrind --quiet --error-exitcode=9 --leak-check=no $(MADE)/boundary --heap $(CALLS)

# each fault must be noticed: by the comparison or the unreadable memory, and reading what isn't initialised by valgrind
test-faults: $(MADE)/boundary-faults $(CALLS)
	@$(MADE)/boundary-faults $(CALLS) >/dev/null || { echo 'test-faults: it fails without a fault'; exit 1; }
	@for fault in $(FAULTS); do \
	    if FAULT=$$fault $(MADE)/boundary-faults $(CALLS) >/dev/null 2>&1; then echo "test-faults: fault $$fault wasn't noticed"; exit 1; fi; done
	@FAULT=u valgrind --quiet --error-exitcode=9 --exit-on-first-error=yes --leak-check=no $(MADE)/boundary-faults --heap $(CALLS) >/dev/null 2>&1; \
	    [ $$? -eq 9 ] || { echo "test-faults: fault u wasn't noticed"; exit 1; }
	@echo 'every fault was noticed: $(FAULTS) u'

$(MADE)/interrupted.so: console/tests/interrupted.c | $(MADE)
	$(CC) $(CFLAGS) -shared -fPIC $< -o $@ -ldl

# the proved program and the installed one: inputs that end early or late, fail or stop for a while, outputs that can't be written
test-program: $(PROVED_PROGRAM) $(PROGRAM) $(MADE)/interrupted.so
	python3 console/tests/program.py $(PROVED_PROGRAM) $(PROGRAM) $(MADE)/interrupted.so

# what is installed serves programs outside the repository, in C, C++, Rust and Python; and it goes again
test-install: all
	MAKE='$(MAKE)' CC='$(CC)' CXX='$(CXX)' python3 console/tests/installed.py

# tests, the examples in the documentation, and the documentation itself without a warning
test-rust: $(PROVED)
	$(CARGO) test --release --offline --quiet --package nuggetbay
	export RUSTDOCFLAGS=-Dwarnings; $(CARGO) doc --offline --quiet --no-deps --package nuggetbay

# ---- the benchmark

# its code is compiled with every test, and run by hand
test-bench: $(PROVED)
	$(CARGO) build --release --quiet --package bench

bench: $(PROVED)
	$(CARGO) run --release --quiet --package bench
