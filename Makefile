# Builds, tests, checks and installs the programs:
#
#     make                    the programs, which are built and proved where dist/ has none of these sources
#     make test               all that can be seen without proving, over the programs that are there; in minutes
#     make setup              installs Debian's packages that the tests need, by apt-get
#     make check              the gate: every proof, test and check; it needs rt of the Rattle kit on PATH, and from nothing an hour of four processors
#     make install            programs, tools, pages, completion and documents into PREFIX, /usr/local where it is not given, below DESTDIR,
#                             which is empty where it is not given
#     make uninstall          removes what make install made, with the same PREFIX and DESTDIR
#
# What is installed needs neither the Rattle kit nor this folder.

PREFIX ?= /usr/local
DESTDIR ?=
TO = $(DESTDIR)$(PREFIX)
PROGRAMS = backsim backsim_check
COMMANDS = $(PROGRAMS) backsim-tools
COMPLETIONS = $(TO)/share/bash-completion/completions
# the package, the checksums of the programs, and the documents
SHARED = $(TO)/share/backsim
DOCUMENTS = $(TO)/share/doc/backsim

all:
	set -e; for name in $(PROGRAMS); do tools/program $$name; done

test:
	@tools/test

setup:
	@tools/setup

check:
	.ci/run

install:
	install -d "$(TO)/bin" "$(TO)/share/man/man1" "$(COMPLETIONS)" "$(SHARED)" "$(DOCUMENTS)"
	rm -f "$(SHARED)/built-from"
	set -e; for name in $(PROGRAMS); do \
	    program=$$(tools/program $$name); \
	    install -m 755 "$$program" "$(TO)/bin/$$name"; \
	    echo "$$name sources $$(tools/sources $$name) program $$(sha256sum <"$$program" | cut -d ' ' -f 1)" >>"$(SHARED)/built-from"; \
	done
	set -e; find python/backsim -name __pycache__ -prune -o -type f -print | while IFS= read -r file; do \
	    install -D -m 644 "$$file" "$(SHARED)/$$file"; \
	done
	install -m 755 tools/installed-tools "$(TO)/bin/backsim-tools"
	set -e; for name in $(COMMANDS); do \
	    tools/manual $$name >"$(TO)/share/man/man1/$$name.1"; \
	    tools/completion >"$(COMPLETIONS)/$$name"; \
	    chmod 644 "$(TO)/share/man/man1/$$name.1" "$(COMPLETIONS)/$$name"; \
	done
	tools/documents "$(DOCUMENTS)"
	chmod 644 "$(SHARED)/built-from"

uninstall:
	for name in $(COMMANDS); do rm -f "$(TO)/bin/$$name" "$(TO)/share/man/man1/$$name.1" "$(COMPLETIONS)/$$name"; done
	rm -rf "$(SHARED)" "$(DOCUMENTS)"

.PHONY: all test setup check install uninstall
