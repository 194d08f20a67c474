# make: prove and build the program. demo: a build without proofs, which analyses and checks an example. test: the gate, the
# conformance calls, the check of the documents, failing memory, and the tools' tests. install, uninstall: the program, its manual page and the tools
# under PREFIX; with PYTHON=.. the tools run under that Python. bench: measures. faults: each allocation of the examples fails in turn.

PREFIX ?= /usr/local
PROGRAM = crates/sag/out/sag
# from crates/sag
EXAMPLE = ../../examples/analyse
SHOWN = out/certificate.txt
PYTHON ?= /usr/bin/env python3
TOOLS = sag-plot sag-experiment
BIN = $(DESTDIR)$(PREFIX)/bin
MODULES = $(DESTDIR)$(PREFIX)/share/sag/sagtools
MANUAL = $(DESTDIR)$(PREFIX)/share/man/man1
COMPLETIONS = $(DESTDIR)$(PREFIX)/share/bash-completion/completions

.PHONY: program demo test gate conformance documents test-tools install install-tools uninstall uninstall-tools bench faults

# What is proved already is not proved again.
program:
	@python3 tools/prove.py crates/sag

# The program compiled with checks at run time, in place of proofs. What `check` reads is what `analyse` printed.
demo:
	@echo '$$ sag analyse jobs.csv' && cd crates/sag && mkdir -p out && \
	  rt try --data jobs.csv=$(EXAMPLE)/jobs.csv -- analyse jobs.csv 2>out/demo.log >$(SHOWN) || { cat out/demo.log >&2; exit 1; }
	@cd crates/sag && cat $(SHOWN) && echo '$$ sag check jobs.csv certificate.txt' && \
	  rt try --data jobs.csv=$(EXAMPLE)/jobs.csv --data certificate.txt=$(SHOWN) -- check jobs.csv certificate.txt 2>out/demo.log || \
	  { cat out/demo.log >&2; exit 1; }
	@echo "This build is not proved. 'make' proves and builds the program, 'make test' all of it."

test: gate documents conformance faults test-tools

gate:
	rt ci

documents:
	@python3 tools/documents.py
	@if command -v mandoc >/dev/null; then mandoc -Tlint man/sag.1; \
	  else echo 'documents: mandoc is not there to look at man/sag.1 (apt install mandoc)'; fi

conformance: program
	@python3 conformance/run.py $(PROGRAM)

test-tools:
	@python3 tools/tests/run.py

install: program install-tools
	install -d $(BIN) $(MANUAL)
	install -m 755 $(PROGRAM) $(BIN)/sag
	install -m 644 man/sag.1 $(MANUAL)/sag.1

install-tools:
	install -d $(BIN) $(MODULES) $(COMPLETIONS)
	for tool in $(TOOLS); do sed '1s|.*|#!$(PYTHON)|' tools/$$tool > $(BIN)/$$tool && chmod 755 $(BIN)/$$tool || exit 1; done
	install -m 644 tools/sagtools/*.py tools/sagtools/page.html $(MODULES)
	for name in sag $(TOOLS); do install -m 644 tools/sag.bash $(COMPLETIONS)/$$name || exit 1; done

uninstall: uninstall-tools
	rm -f $(BIN)/sag $(MANUAL)/sag.1

uninstall-tools:
	for name in sag $(TOOLS); do rm -f $(COMPLETIONS)/$$name; done
	for tool in $(TOOLS); do rm -f $(BIN)/$$tool; done
	rm -rf $(MODULES)
	rmdir $(DESTDIR)$(PREFIX)/share/sag 2>/dev/null || true

bench: program
	python3 bench/replay.py $(PROGRAM)
	@cd crates/cert_speed && rt run >/dev/null 2>&1 && bash -c 'time out/cert_speed'

faults: program
	@if command -v $${CC:-cc} >/dev/null; then python3 bench/alloc_faults.py $(PROGRAM); \
	  else echo 'faults: no C compiler for bench/fail_alloc.c (apt install gcc)'; fi
