# make        proves and builds the program (crates.mk), compacts the sample with it, expands that again and compares,
#             and shows what was written
# make test   runs the gate: proofs (from nothing, but for what a gate has passed on this machine), wrong bodies, the program's stored
#             run, and all tests but the slow ones
# make test T=tests/test_streams.py K='verified and gzip'
#             runs tests of the program that make built: of files, folders or cases (T), and those with these words in their names (K);
#             PEER='RNX2CRX -;CRX2RNX -' asks conformance of two more commands, FILES= adds files to random ones
# make test SLOW=1 runs the slow tests too; with STRICT=1 a test is a failure that this machine lacks something for, SEED= begins random ones
# make quick  proves what changed of the program, and of other crates that were proved here, and runs all tests but the slow ones:
#             without the tests in Rattle and without wrong bodies (what the prover prints goes into out/logs)
# make proofs proves all crates, but for their tests in Rattle
# make docs   makes pages from the sources in out/docs (docs/READING.md), as HTML: DEFINITIONS, with the definitions that the promises rest on,
#             CONTRACTS, with each public function's clauses, PROOFS, with the place of each proof, and GUARANTEES with links to its clauses
# make numbers puts the limits and other numbers of the sources into the texts that state them, and writes what is listed: faults, options
#             (page of use, manual)
# make cases  writes conformance/cases.json from tests/cases and the worked examples of docs/FORMATS.md
# make install PREFIX=/usr/local
#             puts the program that make built, its manual pages, completions and other names in place, and the tool for whole files,
#             for which it builds the library where that isn't built
# make uninstall PREFIX=/usr/local
#             removes what that put there, and nothing else
# make clean  removes all that was made, the proofs too
# make help   shows this list
# make library
#             proves and builds the library for C, C++ and Fortran, into out/library (docs/LIBRARY.md)
# make python makes the package for Python, with the program and the library, into out/python
# make dist TARGETS='x86-64-v2 x86-64 aarch64 windows'
#             proves and builds the program and the library for these machines (for x86-64-v2 alone where none is named) and makes a release
#             of them, in out/dist: archives, Debian packages, wheels, the sources, and SHA256SUMS, signed where KEY= names a key of gpg

SAMPLE := samples/station.rnx
COMPACT := out/station.crx
PROGRAM := crates/rnxcmp/out/rnxcmp
WORDS := rnx2crx --date "01-Jan-24 00:00"

PREFIX ?= /usr/local

.DEFAULT_GOAL := all
include crates.mk
include packaging/machines.mk

ARCHIVE := crates/rnxcmp_c/out/librnxcmp_c.a
# A proof at a time for each core, and 2 GB of memory for each.
JOBS := $(shell awk -v jobs="$$(nproc)" '/^MemTotal/ { n = int($$2 / 2e6); print n < 1 ? 1 : n < jobs ? n : jobs }' /proc/meminfo)
# What crates.mk makes, all at once; if a proof fails, its errors are the last lines that are printed.
made = @+tests/prove.py made $(MAKE) --no-print-directory $(if $(findstring jobserver,$(MAKEFLAGS)),,-j$(JOBS)) $(1)

.PHONY: all proofs test quick docs numbers cases install dist uninstall help clean library python
export FILES PEER SEED SLOW STRICT

all:
	$(call made,$(PROGRAM))
	$(PROGRAM) $(WORDS) < $(SAMPLE) > $(COMPACT)
	$(PROGRAM) crx2rnx < $(COMPACT) | cmp - $(SAMPLE)
	$(PROGRAM) check $(SAMPLE)
	@echo
	@echo "$(COMPACT), its first three lines, and its first two epochs (columns 1 to 100):"
	@head -n 3 $(COMPACT) | cut -c 1-100
	@echo ...
	@grep -A 18 -m 1 'END OF HEADER' $(COMPACT) | tail -n +2 | cut -c 1-100
	@echo ...
	@wc -c $(SAMPLE) $(COMPACT) | grep -v total
	@echo
	@echo "the sample comes back byte for byte; the program is $(PROGRAM)"

proofs:
	$(call made,$(PROGRAM) $(LIBRARIES:%=out/proved/%.made) $(ARCHIVE))

test:
	@tests/runner.py $(if $(T)$(K),$(T) $(if $(K),-k '$(K)'),--gate)

quick:
	$(call made,$(PROGRAM) $(filter $(wildcard out/proved/*.made),$(LIBRARIES:%=out/proved/%.made)) $(wildcard $(ARCHIVE)))
	@tests/runner.py

docs:
	docs/pages.py out/docs

# the limits and other numbers of the sources, in the texts that state them
numbers:
	docs/stated.py

cases:
	tests/collect.py > conformance/cases.json

install:
	@[ -f out/library/librnxcmp.so.2 ] || $(MAKE) --no-print-directory library || echo "the library isn't built"
	packaging/install.sh "$(DESTDIR)$(PREFIX)" $(PROGRAM) out/library
	@[ ! -d "$(DESTDIR)$(PREFIX)/lib/rnxcmp" ] || { umask 022 && python3 -m compileall -q "$(DESTDIR)$(PREFIX)/lib/rnxcmp"; } || echo "rnxcmp-file starts slower: Python compiled nothing"

uninstall:
	packaging/uninstall.sh "$(DESTDIR)$(PREFIX)"

# what the first lines of this file say
help:
	@sed -n '/^#/!q; s/^# \{0,1\}//p' Makefile

clean:
	rm -rf out crates/*/out

library:
	$(call made,$(ARCHIVE))
	library/build.sh $(ARCHIVE) out/library

python:
	@packaging/compilers.sh x86-64-v2
	@$(MAKE) --no-print-directory library
	$(call made,machine-x86-64-v2)
	rm -rf out/python
	python3 python/build_wheel.py out/library out/python --program out/machines/x86-64-v2/built/rnxcmp

dist:
	@packaging/compilers.sh $(TARGETS)
	$(call made,$(TARGETS:%=machine-%))
	KEY='$(KEY)' packaging/dist.sh out/dist out/machines $(TARGETS)
	@cat out/dist/SHA256SUMS
