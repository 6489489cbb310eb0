# What there is to make, from the top of the repository:
#
#   make            builds the program without its proofs, as build/aig
#   make demo       runs the tour of README.md with it
#   make test       runs all tests with it; nothing is proved
#   make prove      the gate: proves every function, runs the tests, tries the planted bugs
#   make bench      measures the program that the gate proved, else build/aig, beside a C++ program: ten minutes
#   make lib        builds the library for C without its proofs, as build/lib/libaig.a and libaig.so
#   make install    installs the program and the library that the gate proved, else those of build with a warning; and
#                   aig-explain and aig-verdicts. `make install-toolkit` and `make install-verdicts` install one product
#   make wheel      writes the wheel of `aig` with that program and library into build, and that of `aig_verdicts`
#   make dist       packs a release of a commit whose gate has passed, into build/dist
#   make clean      removes build/aig, build/aig_tests, build/lib and build/dist
#
# `make install` takes PREFIX and DESTDIR. Like `make bench` and `make wheel` it takes PROGRAM, for another program than
# the one that it would choose. Both `make install` and `make wheel` take LIBRARY, for another folder of libaig.a and
# libaig.so, or for none: `LIBRARY=`.

PREFIX ?= /usr/local
PROGRAM ?= $(shell tools/gate.py program)
LIBRARY ?= $(shell tools/gate.py library)
ROOT = $(DESTDIR)$(PREFIX)
DOCUMENTS = $(ROOT)/share/doc/aig
SOURCES := $(shell find crates -name out -prune -o -name '*.rt' -print) crates.txt tools/build_unproved.sh
SPECS := $(shell find crates -name out -prune -o -path '*/specs/*.antt' -print)
LIBRARY_SOURCES := tools/unproved_library.py tools/c_library.py

aig: build/aig
	@echo "build/aig is ready. Nothing of it is proved; 'make prove' proves it."

build/aig: $(SOURCES)
	@for tool in rt cc python3; do command -v $$tool > /dev/null || { echo "make: there is no $$tool" >&2; exit 1; }; done
	@echo "Building build/aig without its proofs: three or four minutes."
	@mkdir -p build
	@tools/build_unproved.sh "$(CURDIR)" aig build/aig

demo: build/aig
	@tests/tour.py build/aig

build/aig_tests: $(SOURCES)
	@mkdir -p build
	@tools/build_unproved.sh "$(CURDIR)" aig_tests build/aig_tests

lib: build/lib/libaig.a
	@echo "build/lib has libaig.a and libaig.so. Nothing of them is proved; 'make prove' makes proved ones."

build/lib/libaig.a: $(SOURCES) $(LIBRARY_SOURCES)
	@echo "Building build/lib without its proofs: about three minutes."
	@mkdir -p build/lib
	@tools/unproved_library.py build/lib

test: build/aig build/aig_tests build/lib/libaig.a
	@echo "Running all tests on build/aig: about half an hour on two processors."
	@tests/all.py build/aig

prove:
	@.ci/run

bench: $(PROGRAM)
	@benchmarks/measure.py --aig "$(PROGRAM)" --times 3 goals refute memory

install: install-toolkit install-verdicts

install-toolkit: $(PROGRAM) $(addsuffix /libaig.a,$(LIBRARY))
	@[ "$(PROGRAM)" != build/aig ] || echo "make install: warning: nothing of this program is proved" >&2
	install -D "$(PROGRAM)" "$(ROOT)/bin/aig"
	install -D -t "$(ROOT)/bin" tools/aig-explain
	for file in $$(cd python/src && find aig -name '*.py'); do \
	    install -D -m 644 "python/src/$$file" "$(ROOT)/share/aig/python/$$file"; \
	done
	install -D -m 644 -t "$(ROOT)/share/man/man1" man/aig.1 man/aig-explain.1
	install -D -m 644 -t "$(ROOT)/share/man/man5" man/aig-formats.5
	for name in aig aig-explain; do \
	    install -D -m 644 completions/aig.bash "$(ROOT)/share/bash-completion/completions/$$name"; \
	done
	install -D -m 644 -t "$(ROOT)/share/zsh/site-functions" completions/_aig
	if [ "$(LIBRARY)" ]; then \
	    install -D -m 644 include/aig.h "$(ROOT)/include/aig.h" && \
	    install -D -m 644 "$(LIBRARY)/libaig.a" "$(ROOT)/lib/libaig.a" && \
	    install -D -m 644 "$(LIBRARY)/libaig.so" "$(ROOT)/lib/libaig.so.0" && \
	    ln -sf libaig.so.0 "$(ROOT)/lib/libaig.so" && \
	    install -D -m 644 tools/aig.pc "$(ROOT)/lib/pkgconfig/aig.pc"; \
	fi
	install -D -m 644 -t "$(DOCUMENTS)" *.md LICENSE-*
	cp -R docs examples "$(DOCUMENTS)"
	tools/contracts.py --page "$(DOCUMENTS)/docs/CONTRACTS.md"
	cp --parents include/aig.h python/README.md benchmarks/README.md crates/*/README.md $(SPECS) "$(DOCUMENTS)"
	chmod -R u=rwX,go=rX "$(DOCUMENTS)"

install-verdicts:
	install -D -t "$(ROOT)/bin" tools/aig-verdicts
	for file in $$(cd verdicts/src && find aig_verdicts -name '*.py' -o -name '*.v'); do \
	    install -D -m 644 "verdicts/src/$$file" "$(ROOT)/share/aig-verdicts/python/$$file"; \
	done
	install -D -m 644 -t "$(ROOT)/share/man/man1" man/aig-verdicts.1
	install -D -m 644 completions/aig-verdicts.bash "$(ROOT)/share/bash-completion/completions/aig-verdicts"
	install -D -m 644 -t "$(ROOT)/share/zsh/site-functions" completions/_aig-verdicts
	install -D -m 644 -t "$(ROOT)/share/fish/vendor_completions.d" completions/aig-verdicts.fish
	install -D -m 644 -t "$(DOCUMENTS)/verdicts" verdicts/*.md
	install -D -m 644 -t "$(DOCUMENTS)/verdicts/docs" verdicts/docs/*
	install -D -m 644 -t "$(ROOT)/share/doc/aig-verdicts" LICENSE-*

wheel: $(PROGRAM) $(addsuffix /libaig.a,$(LIBRARY))
	@[ "$(PROGRAM)" != build/aig ] || echo "make wheel: warning: nothing of this program is proved" >&2
	@mkdir -p build
	@python/make_wheel.py build "$(PROGRAM)" $(if $(LIBRARY),"$(LIBRARY)/libaig.so")
	@verdicts/make_wheel.py build

dist:
	@tools/pack.py

clean:
	rm -rf build/aig build/aig_tests build/lib build/dist

.PHONY: aig demo lib test prove bench install install-toolkit install-verdicts wheel dist clean
.DELETE_ON_ERROR:
