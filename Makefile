# make             proves and builds the program, crates side by side; make JOBS=2 uses two processors
# make check       proves everything from nothing, tries wrong bodies, runs the tests, and checks the built program
# make libomega    proves and builds the library for C and Python, out/libomega.a and out/libomega.so
# make install-lib installs header, library and a file for pkg-config below PREFIX
# make dist-lib    packs the built library into dist/: a Debian package for C and a wheel for Python, with their sums
# make install     installs program, manual and completions below PREFIX
# make dist        packs the built program into dist/: an archive and a Debian package, with their SHA-256 sums
PREFIX ?= /usr/local
DESTDIR ?=
PROGRAM = crates/omega_tool/out/omega_tool

.PHONY: all check libomega install install-lib dist dist-lib clean
all:
	@JOBS='$(JOBS)' python3 make/build.py

check:
	python3 make/rt.py ci
	python3 make/library.py --left-by-ci
	checks/run

libomega:
	@JOBS='$(JOBS)' python3 make/library.py

install: all
	python3 make/package.py install --program $(PROGRAM) --prefix $(PREFIX) --root '$(DESTDIR)/'

install-lib: libomega
	python3 make/package.py install-lib --library out --prefix $(PREFIX) --root '$(DESTDIR)/'

dist: all
	python3 make/package.py dist --program $(PROGRAM) --into dist

dist-lib: libomega
	python3 make/package.py dist-lib --library out --into dist

clean:
	rm -rf dist out crates/*/out
