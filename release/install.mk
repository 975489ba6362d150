# Installing, said once, for the Makefile of the repository and that of a release. Both stand beside include/, man/ and
# seamkettle.pc.in, and say where the archive (LIB), the commands (SCRIPTS) and their programs (PROGRAMS) are. A command NAME is
# installed as seamkettle-NAME.
# PREFIX=/usr/local; DESTDIR goes before all paths.

PREFIX ?= /usr/local
DESTDIR ?=
INSTALL ?= install
TO = $(DESTDIR)$(PREFIX)
MAN = $(wildcard man/*.1 man/*.3 man/*.7)

# the version is the header's
VERSION := $(shell sed -n -E 's/^.define KETTLE_VERSION_(MAJOR|MINOR|PATCH) +([0-9]+).*/\2/p' include/seamkettle.h | paste -sd. -)

# The functions that a page of section 3 names, up to its description. Each gets a page of one line, which leads to that page.
NAMES = sed -n -E '1,/^\.Sh DESCRIPTION/s/^\.(Nm|Fo|Fn) (kettle_[a-z0-9_]+).*/\2/p'

.PHONY: install uninstall

install: $(LIB) $(SCRIPTS) $(PROGRAMS)
	$(INSTALL) -d '$(TO)/include' '$(TO)/lib/pkgconfig' '$(TO)/bin' '$(TO)/libexec/seamkettle' '$(TO)/share/man/man1' \
	    '$(TO)/share/man/man3' '$(TO)/share/man/man7'
	for command in $(SCRIPTS); do name=$${command##*/}; \
	    $(INSTALL) -m 755 $$command '$(TO)'/bin/seamkettle-$${name#seamkettle-} || exit 1; done
	$(INSTALL) -m 755 $(PROGRAMS) '$(TO)/libexec/seamkettle/'
	$(INSTALL) -m 644 include/seamkettle.h '$(TO)/include/'
	$(INSTALL) -m 644 $(LIB) '$(TO)/lib/libseamkettle.a'
	sed -e 's|@PREFIX@|$(PREFIX)|' -e 's|@VERSION@|$(VERSION)|' seamkettle.pc.in >'$(TO)/lib/pkgconfig/seamkettle.pc'
	chmod 644 '$(TO)/lib/pkgconfig/seamkettle.pc'
	for page in $(MAN); do $(INSTALL) -m 644 $$page '$(TO)'/share/man/man$${page##*.}/ || exit 1; done
	for page in $(filter %.3,$(MAN)); do for name in $$($(NAMES) $$page); do \
	    echo ".so man3/$${page##*/}" >'$(TO)'/share/man/man3/$$name.3 && chmod 644 '$(TO)'/share/man/man3/$$name.3 || exit 1; \
	done; done

uninstall:
	rm -f '$(TO)/include/seamkettle.h' '$(TO)/lib/libseamkettle.a' '$(TO)/lib/pkgconfig/seamkettle.pc'
	for command in $(SCRIPTS); do name=$${command##*/}; rm -f '$(TO)'/bin/seamkettle-$${name#seamkettle-} || exit 1; done
	for program in $(PROGRAMS); do rm -f '$(TO)'/libexec/seamkettle/$${program##*/} || exit 1; done
	for page in $(MAN); do rm -f '$(TO)'/share/man/man$${page##*.}/$${page##*/} || exit 1; done
	for name in $$($(NAMES) $(filter %.3,$(MAN))); do rm -f '$(TO)'/share/man/man3/$$name.3 || exit 1; done
	rmdir '$(TO)/libexec/seamkettle' 2>/dev/null || :
