# make run        proves every crate, runs the programs, and prints the row system of a small model
# make test       runs the gate
# make try        runs the program rows on a small model in seconds, with nothing proved, and prints what it wrote
# make library    proves the calls and builds target/libpearrummy.a
# make command    builds target/pearrummy, the command, with that library
# make install    installs header, library, command, man page and pkg-config file under PREFIX, /usr/local if none is given; DESTDIR is kept
# make uninstall  takes them away again
# make example    builds the examples in C with the proved library and runs them
# make bench      measures the calls
# make worst      measures each call on the slowest input of it that was found
.PHONY: run test try library command install uninstall example bench worst
# a library that is half made is not taken for a new one
.DELETE_ON_ERROR:

CC = gcc
CFLAGS = -std=c11 -O2 -Wall -Wextra -Wpedantic -Werror
PREFIX = /usr/local
# quoted wherever it stands: its name may have blanks
ROOT = $(DESTDIR)$(PREFIX)
VERSION = $(shell sed -n 's/^.define PEARRUMMY_VERSION "\(.*\)"/\1/p' include/pearrummy.h)
# what the library is made of: it is proved and built again only where one of these is newer
SOURCES = crates.txt include/pearrummy.h library/fault_text.c $(shell find crates -name out -prune -o '(' -name '*.rt' -o -name '*.antt' ')' -print)
INSTALLED = include/pearrummy.h lib/libpearrummy.a lib/pkgconfig/pearrummy.pc bin/pearrummy share/man/man1/pearrummy.1 share/doc/pearrummy/FORMAT.md share/doc/pearrummy/RULES.md

run:
	mkdir -p target
	bash -o pipefail -c 'rt ci 2>&1 | python3 tests/progress.py target/run.log'
	crates/rows/out/rows < crates/rows/stdin

test:
	bash .ci/run

try:
	cd crates/rows && rt try < stdin

library: target/libpearrummy.a

target/libpearrummy.a: $(SOURCES)
	mkdir -p target
	python3 tests/kit.py archive
	$(CC) $(CFLAGS) -c -o target/fault_text.o library/fault_text.c
	cp crates/host/out/libhost.a target/libpearrummy.a
	ar rcs target/libpearrummy.a target/fault_text.o

command: library
	$(CC) $(CFLAGS) -DMINIZINC_FOLDER='"$(abspath minizinc)"' -o target/pearrummy command/pearrummy.c command/input.c target/libpearrummy.a

install: command
	install -D -m 644 include/pearrummy.h "$(ROOT)/include/pearrummy.h"
	install -D -m 644 target/libpearrummy.a "$(ROOT)/lib/libpearrummy.a"
	$(CC) $(CFLAGS) -DMINIZINC_FOLDER='"$(PREFIX)/share/pearrummy/minizinc"' -o target/pearrummy-installed command/pearrummy.c command/input.c target/libpearrummy.a
	install -D -m 755 target/pearrummy-installed "$(ROOT)/bin/pearrummy"
	install -D -m 644 minizinc/rows.msc "$(ROOT)/share/pearrummy/minizinc/rows.msc"
	install -D -m 755 minizinc/flatten.py "$(ROOT)/share/pearrummy/minizinc/flatten.py"
	install -D -m 644 -t "$(ROOT)/share/pearrummy/minizinc/mznlib" minizinc/mznlib/*.mzn
	install -D -m 644 command/pearrummy.1 "$(ROOT)/share/man/man1/pearrummy.1"
	install -D -m 644 -t "$(ROOT)/share/doc/pearrummy" docs/FORMAT.md docs/RULES.md
	sed -e 's|@PREFIX@|$(PREFIX)|' -e 's|@VERSION@|$(VERSION)|' library/pearrummy.pc.in > target/pearrummy.pc
	install -D -m 644 target/pearrummy.pc "$(ROOT)/lib/pkgconfig/pearrummy.pc"

uninstall:
	rm -f $(foreach file,$(INSTALLED),"$(ROOT)/$(file)")
	rm -rf "$(ROOT)/share/pearrummy" "$(ROOT)/share/doc/pearrummy"

example:
	bash tests/example.sh

bench: library
	$(CC) -O2 -Wall -Wextra -Werror -o target/calls bench/calls.c target/libpearrummy.a
	target/calls

worst: library
	$(CC) $(CFLAGS) -D_GNU_SOURCE -o target/worst bench/worst.c target/libpearrummy.a
	target/worst
