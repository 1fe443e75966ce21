# Everything that a machine with the toolchain needs: `make demo` runs the main job, `make build` proves and builds the programs, `make test` passes
# the tests, and `make install` puts the programs in place.

PREFIX ?= /usr/local
PROGRAMS = farm farmd scc farm_jobs
bin = $(DESTDIR)$(PREFIX)/bin
man = $(DESTDIR)$(PREFIX)/share/man/man1
completions = $(DESTDIR)$(PREFIX)/share/bash-completion/completions
units = $(DESTDIR)$(PREFIX)/lib/systemd/system
boxes = $(DESTDIR)$(PREFIX)/lib/farmd
BOXED = gcc g++ cc c++ clang clang++
defaults = $(DESTDIR)/etc/default

.PHONY: bench bench-jobs bench-wire build checks demo dist edits gate install quick test test-all uninstall

# The farm whole: farm with two farmds on loopback, of which one is killed in the middle of a build. If there are no proved programs, they are built for
# this run only, without proofs.
demo:
	tools/demo

# The checks need what the gate has built, also under `make -j`.
.NOTPARALLEL:

# Both: what the proofs say, and what the programs do on this machine.
test: gate checks

# Each crate is proved, each edit that must fail is refused, each test and each stored run passes.
gate:
	rt ci

# The first thing to run after a change: all tests, and the checks of tests/ that need only farm and farmd, without a proof, in some ten minutes.
quick:
	tools/quick

# Has the prover try each edit that it has to refuse and that isn't known to be refused, those beside the gate's too, in some hours: before a release.
edits:
	tools/more-edits --all

# First what needs no program: the map of the crates, the list of what has to be believed, the texts of edits, what makes functions hard to read, and plain
# words. Then the programs: with a real distccd, in an odd environment, on a real disk, with faults of a real machine, with an allocation refused. Then real
# and hostile clients, options, the cache, whole projects and packages, dependency files, command shapes, several hosts and shared runs. Then a program of many sources,
# the manual pages, the installation, the unit for systemd and the demonstration. Each is skipped if a program that it needs is missing.
checks:
	tools/layers
	tools/believed
	tools/more-edits
	tools/shape
	tools/plain
	tests/interop
	tests/environment
	tests/delivery
	tests/faults
	tests/allocations
	tests/clients
	tests/hostile
	tests/options
	tests/cache
	tests/projects
	tests/packages
	tests/dependencies
	tests/shapes
	tests/randomize
	tests/share
	bench/instructions --check
	tests/database
	tests/programs
	tests/manual
	tests/install
	tests/unit
	tests/demo

# The same, with each allocation refused and not some of them, and with a host that is silent for 10 minutes.
test-all: test
	tests/allocations --every
	SLOW=yes tests/faults

# Proves and builds the programs, and all libraries that they use.
build:
	tools/prove $(PROGRAMS)

# Puts below PREFIX: the programs, farmcc, farmd-box with a link for each usual compiler of /usr/bin, manual pages, the completion for bash, and the unit of farmd for
# systemd. What the unit is started with goes into /etc/default/farmd, unless it is there already. DESTDIR comes before these for a package. What isn't built
# yet is proved and built.
install:
	@for program in $(PROGRAMS); do [ -x crates/$$program/out/$$program ] || exec tools/prove $(PROGRAMS); done
	install -d $(bin) $(man) $(completions) $(units) $(boxes)
	for program in $(PROGRAMS); do \
	  install -m 755 crates/$$program/out/$$program $(bin)/$$program && \
	  install -m 644 man/$$program.1 $(man)/$$program.1 && \
	  install -m 644 contrib/completions/farm $(completions)/$$program || exit 1; \
	done
	install -m 755 contrib/farmcc $(bin)/farmcc
	install -m 755 contrib/farmd-box $(boxes)/farmd-box
	for name in $(BOXED); do [ ! -x /usr/bin/$$name ] || ln -sf farmd-box $(boxes)/$$name || exit 1; done
	sed 's|/usr/local/bin/farmd|$(PREFIX)/bin/farmd|; s|/usr/local/lib/farmd/|$(PREFIX)/lib/farmd/|g' contrib/farmd.service >$(units)/farmd.service
	chmod 644 $(units)/farmd.service
	[ -e $(defaults)/farmd ] || { install -d $(defaults) && install -m 644 contrib/farmd.default $(defaults)/farmd; }

uninstall:
	for program in $(PROGRAMS); do rm -f $(bin)/$$program $(man)/$$program.1 $(completions)/$$program; done
	rm -f $(units)/farmd.service $(bin)/farmcc $(boxes)/farmd-box
	for name in $(BOXED); do rm -f $(boxes)/$$name; done
	[ ! -d $(boxes) ] || rmdir --ignore-fail-on-non-empty $(boxes)
	if cmp -s contrib/farmd.default $(defaults)/farmd; then rm -f $(defaults)/farmd; fi

# An archive of what `make install` puts in place, with the SHA-256 sums of its files and how it was made, in dist/ or in the folder that ARCHIVES
# names.
dist:
	contrib/dist

# The measures of docs/benchmarks.md but that of the cache and the two below, in hours. What they find goes into docs/figures and docs/generated/benchmarks.md.
bench bench-wire bench-jobs: export FIGURES = docs/figures
bench:
	bench/run
	bench/builds 100 7
	bench/make
	bench/share
	bench/servers 64 7
	bench/scale
	bench/transfer
	bench/memory
	bench/gaps
	bench/start
	bench/plot

# How many times as long writing and reading 32 MiB takes as a plain copy of as many bytes.
bench-wire:
	bench/text wire

# How many times as long reading job lists of 4 and of 16 MiB takes as plain copies of them.
bench-jobs:
	bench/text jobs
