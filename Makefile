# The C side: one archive, one header.
#
#   make             proves and builds target/staticlib/libseamkettle.a, target/bin/listing and target/bin/sourcing
#   make test        builds the C tests and runs them
#   make test-replay runs the stored script through the archive, and live ones where the Rust is built (oracle/build)
#   make fuzz        fuzzes the archive, SECONDS=60 (docs/FUZZING.md)
#   make example     builds the example and runs it
#   make install     installs header, archive, pkg-config file, the listing and source commands and man pages: PREFIX=/usr/local,
#                    DESTDIR before all paths
#   make uninstall   removes what it installed
#   make dist        writes a release, target/dist/seamkettle-VERSION-x86_64.tar.gz, which needs no kit: DIST=target/dist
#   make clean       removes what was built of C, target/c; proofs and archive stay
#
# The archive is proved and built by tools/build, which needs the Rattle kit. LIB=FILE takes an archive that is built elsewhere.
# All that is built goes to target/.

LIB = target/staticlib/libseamkettle.a
SCRIPTS = tools/listing tools/source
PROGRAMS = target/bin/listing target/bin/sourcing
DIST ?= target/dist
CFLAGS ?= -O2 -g
CXXFLAGS ?= -O2 -g

# The archive is x86-64. On another processor what is linked with it is cross-built, and an emulator runs it (tools/on-x86-64).
ifneq ($(shell uname -m),x86_64)
ifeq ($(origin CC),default)
CC = x86_64-linux-gnu-gcc
endif
ifeq ($(origin CXX),default)
CXX = x86_64-linux-gnu-g++
endif
STATIC = -static
RUN = tools/on-x86-64 --static
endif

INSTALLED = CC='$(CC)' CFLAGS='$(CFLAGS)' LDFLAGS='$(LDFLAGS) $(STATIC)' RUN='$(RUN)'
COMPILE = $(CC) -std=c99 -Wall -Wextra -pedantic -Iinclude $(CFLAGS)
STRICT = -Wconversion -Wshadow -Werror

TESTS = count guard machines reference interpreter printer answers tables programs steps instructions \
    journals walks texts limits meanings listings prints sources helpers records wrappers damage lengths
EXAMPLES = $(patsubst examples/%.c,target/c/%,$(wildcard examples/*.c))

.PHONY: all test test-papers test-entries test-headers test-install test-dist test-archive test-tour example examples dist clean \
    always
.DELETE_ON_ERROR:

all: $(LIB) $(PROGRAMS)

# tools/build finds out whether there is anything to do
target/staticlib/libseamkettle.a: always
	@tools/build seamkettle

# ---- tests and example

test: test-papers test-headers test-entries test-install test-dist test-archive test-tour

# the papers beside the sources; the page of the assembly language beside the listing command
test-papers: target/bin/listing
	tests/c/papers
	tests/c/asm7 tools/listing
	@if command -v mandoc >/dev/null; then echo mandoc $(MAN) && mandoc -T lint -W warning $(MAN); \
	    else echo 'the form of the man pages: NOT TRIED, mandoc is not here'; fi

test-entries: target/c/entries
	$(RUN) $<

target/c/entries: $(TESTS:%=target/c/tests/%.o) $(LIB)
	$(CC) $(CFLAGS) $(LDFLAGS) $(STATIC) -Wl,--fatal-warnings $^ -o $@

target/c/tests/%.o: tests/c/%.c tests/c/check.h include/seamkettle.h
	@mkdir -p $(@D)
	$(COMPILE) $(STRICT) -c $< -o $@

# the header alone, by each compiler and standard; then C++ linked with the archive
test-headers: target/c/header
	tests/c/headers
	$(RUN) $<

target/c/header: tests/c/header.cpp include/seamkettle.h $(LIB)
	@mkdir -p $(@D)
	$(CXX) -std=c++11 -Wall -Wextra -Wpedantic -Werror -Iinclude $(CXXFLAGS) $(LDFLAGS) $(STATIC) $< $(LIB) -o $@

# into a folder of its own, and a program against it
test-install: all
	$(INSTALLED) LIB='$(LIB)' tests/c/install $(MAKE)

# the same with a release, where no kit is; then a second build of it
test-dist: all
	$(INSTALLED) LIB='$(LIB)' tests/c/dist $(MAKE)
ifeq ($(LIB),target/staticlib/libseamkettle.a)
	tests/c/same-bytes $(MAKE)
else
	@echo 'tests/c/same-bytes: NOT TRIED, the archive was built elsewhere'
endif

# what the archive defines and needs, and how much stack each entry takes, beside the header's numbers
test-archive: target/c/stack
	$(RUN) $<
ifeq ($(RUN),)
	tests/c/symbols $(LIB)
	tests/c/frames $(LIB)
else
	@echo 'tests/c/symbols, tests/c/frames: NOT TRIED, they read x86-64 code with the tools of this processor'
endif

target/c/stack: tests/c/stack.c include/seamkettle.h $(LIB)
	@mkdir -p $(@D)
	$(COMPILE) $(LDFLAGS) $(STATIC) $< $(LIB) -o $@

target/c/%: examples/%.c include/seamkettle.h $(LIB)
	@mkdir -p $(@D)
	$(COMPILE) $(LDFLAGS) $(STATIC) $< $(LIB) -o $@

examples: $(EXAMPLES)

example: examples
	examples/run $(RUN) target/c/acceptance
	[ "$$($(RUN) target/c/first)" = 'A is 42 after 3 steps' ]

# README's tour, as it stands there
test-tour: examples $(PROGRAMS)
	tests/c/tour

# ---- installing

# programs of their own, which the scripts start; one after the other, as rt proves two crates at a time by itself
$(PROGRAMS): target/bin/%: $(LIB)
	@tools/build $*
	@touch $@
target/bin/sourcing: | target/bin/listing

include release/install.mk

dist: all
	tools/dist '$(VERSION)' '$(LIB)' '$(DIST)' $(PROGRAMS)

clean:
	rm -rf target/c

include tests/replay/replay.mk
include tests/fuzz/fuzz.mk
