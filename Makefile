# The targets, one line each: `make help` prints these lines.
#: make help                   lists the targets, as here
#: make run HISTORY=FILE       audits a history (without HISTORY examples/write_skew.history) and says what its status means
#: make run EXPLAIN=1          leaves out edges and pivots, and tells below each finding which events make it
#: make run MAX_EVENTS=N        takes a history of up to N events, and with MAX_BYTES=N of up to N bytes (100000 and 16777216)
#: make run BRIEF=1 CHECK=si   leaves out edges and pivots, and the status tells of another level: serializable, ssi, si or gsi
#: make                        proves and builds the program, where there is none or a source is newer than it
#: make build                  proves and builds the program in any case; the kit knows what it has proved already
#: make test                   tests the kept program and the companion, in minutes and without a proof, and says what it didn't test
#: make test FULL=1            the whole gate: proves all from nothing, tries the wrong edits, and tests the program that it built
#: make test SERVERS=1         also tests the recorder with the stores that are installed
#: make prove                  proves what isn't proved yet, builds the program, and runs the crates' own tests
#: make witnesses              sees that each wrong edit answers otherwise than the code, and keeps both answers; ALL=1 tries all anew
#: make install PREFIX=/usr    installs si_audit, si-history and their man pages in PREFIX/bin and PREFIX/share, under DESTDIR
#: make uninstall PREFIX=/usr  removes what make install put there, and nothing else
#: make deb                    makes a Debian package of the program, si-history, their man pages and completions, in out/
#: make release                proves, builds and keeps the program in release/, for make run, install, bench and databases
#: make bench                  times the program on generated histories, with one worker and with four, and tells the change from kept figures
#: make bench KEEP=1           does the same, and keeps its figures in tools/bench_figures.txt
#: make bench LONG=1           does the same, and times histories of ten million events besides those of up to a million
#: make databases RUNS=20      records and audits eleven stores (sh tools/install_databases.sh installs what it needs)
#: make clean                  removes what was built and checked

HISTORY = examples/write_skew.history
BRIEF ?=
EXPLAIN ?=
CHECK ?= serializable
FULL ?=
ALL ?=
KEEP ?=
LONG ?=
MAX_BYTES ?=
MAX_EVENTS ?=
PREFIX ?= /usr/local
DESTDIR ?=
RUNS = 20

# These reach the shell as they were given: make reads no $ in them. PROGRAM, which some of the tools take, is nothing that an
# environment may name: what the targets run was made from the sources at hand.
GIVEN = HISTORY BRIEF EXPLAIN CHECK MAX_BYTES MAX_EVENTS FULL ALL KEEP LONG PREFIX DESTDIR RUNS
$(foreach name,$(GIVEN),$(eval override $(name) := $$(value $(name))))
export $(GIVEN)
unexport PROGRAM

.PHONY: all help run build prove test witnesses install uninstall deb release bench databases clean

all:
	@sh tools/build.sh

help:
	@sed -n 's/^#: //p' Makefile

run:
	@sh tools/audit.sh "$$HISTORY"

build:
	@sh tools/build.sh always

test:
	@sh tools/test.sh

prove:
	@sh tools/test.sh prove

witnesses:
	@sh tools/witnesses.sh

install:
	@sh tools/install.sh

uninstall:
	@sh tools/uninstall.sh

deb:
	@sh tools/deb.sh

release:
	@sh tools/release.sh renew

bench:
	@sh tools/bench.sh

databases:
	@sh tools/databases.sh "$$RUNS"

clean:
	@rm -rf out crates/*/out
