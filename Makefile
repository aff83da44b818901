# Each line has a target, how long it takes on two cores, and what it does. In brackets: the proof before it, where
# nothing is built, by bench/MINUTES.md.
# make help      at once; prints these lines
# make run       a minute; runs the program on a shipped example, proved where it is built, else before any proof
# make try       2 minutes; builds the libraries for C before any proof, in out/unproved of crates/safepoint and crates/model
# make quick     3 to 8 minutes, seconds for a page; checks what changed since the last state that passed, or CRATES
# make build     seconds (40 minutes); proves and builds the programs and the libraries for C, and says how far it is; PROGRAMS names others
# make install   seconds; puts what is built below PREFIX (/usr/local), with DESTDIR before it
# make uninstall  seconds; takes that away
# make test      30 minutes (2 hours and more); the gate, then further wrong bodies (begun within EDITS_MINUTES, if that is set), the built programs and the libraries for C from outside
# make examples  2 minutes (20 minutes); the built program on all examples, on bad words and with each fault; then make embed
# make embed     seconds (10 minutes); the toy runtimes in C and in Rust that step the model beside them, over the static library
# make safepoint  3 minutes (20 minutes); builds the library by which C, C++ and Rust stop threads, and tries it from each
# make pictures  seconds (10 minutes); draws the pictures of PICTURES, which are in examples, again, and the small one of the README
# make picture   seconds (or 3 minutes, before any proof); finds an order of the log of calls LOG, checks it, and draws it into OUT
# make random    minutes (30 minutes); compares pictures of 100,000 random lines, over all events, with what the core answers
# make parts     minutes (30 minutes); times pictures of 500 lines of runs of ten million, beside `monitor replay`
# make edits     minutes a crate (80 minutes); the wrong bodies alone, all or those of CRATES, over what the gate keeps of its last run
# make bench     minutes (30 minutes); times the program, and the calls and stops of running threads
# make scale     minutes (20 minutes); times how the stops grow, prints it to bench/scale.txt, and draws bench/scale.svg
# make hostile   seconds (30 minutes); tests of threads twenty times, tests of refused memory with each growth refused in turn
# make runs      seconds (20 minutes); scripts on threads a hundred times each, then with each thread and each growth of memory refused in turn
# make soak      MINUTES, 10 (20 minutes); threads at random over what they share, with one seed after the other
# make side      a minute (20 minutes); random schedules on the running layer and on the core beside it: SEEDS of them (1000), from seed FIRST on
# make witness   2 minutes for each of SEEDS, 3 (30 minutes); records runs of real threads, and finds an order of events for each
.PHONY: help run build try quick install uninstall test examples embed safepoint picture pictures random parts edits bench scale hostile runs soak side witness

PROGRAMS ?= monitor timeline confirm model safepoint
PREFIX ?= /usr/local
DESTDIR ?=
PICTURES = handshake_native four_handshakes safepoint_census reclaiming
CRATES ?=
MINUTES ?= 10
FIRST ?= 22

help:
	@sed -n 's/^# make/make/p' Makefile

run:
	@tests/first_run.py monitor replay < examples/one_publication.lines

build:
	@tests/build.py $(PROGRAMS)

try:
	@tests/unproved.py

quick:
	@tests/quick.py $(CRATES)

install uninstall:
	@PREFIX='$(PREFIX)' DESTDIR='$(DESTDIR)' install/install.py $@

test:
	@tests/all.py

examples: embed
	@tests/build.py monitor
	@tests/program.py crates/monitor/out/monitor

safepoint:
	@tests/build.py model safepoint
	@tests/safepoint.py crates/safepoint/out/libsafepoint.a
	@tests/collector.py crates/safepoint/out/libsafepoint.a
	@tests/inline.py crates/safepoint/out/libsafepoint.a
	@tests/hosts.py crates/safepoint/out/libsafepoint.a

embed:
	@tests/build.py model
	@tests/embed.py crates/model/out/libmodel.a

picture:
	@tests/draw.py '$(LOG)' $(if $(OUT),'$(OUT)')

pictures:
	@tests/build.py timeline
	@for name in $(PICTURES); do crates/timeline/out/timeline < examples/$$name.lines > examples/$$name.svg; done
	@bench/small.py examples/handshake_native.svg > examples/handshake_small.svg

random:
	@tests/build.py monitor timeline
	@tests/random_pictures.py crates/monitor/out/monitor crates/timeline/out/timeline 100000

parts:
	@tests/build.py monitor timeline
	@bench/pictures.py

edits:
	@tests/edits.sh $(CRATES)

bench:
	@tests/build.py monitor bench_running
	@bench/replay.py crates/monitor/out/monitor
	@bench/running.py crates/bench_running/out/bench_running
	@bench/scale.py crates/bench_running/out/bench_running

scale:
	@tests/build.py bench_running
	@bench/scale.py crates/bench_running/out/bench_running --plot bench/scale.svg > bench/scale.txt && cat bench/scale.txt

hostile:
	@tests/hostile.py

runs:
	@tests/build.py monitor
	@tests/runs.py crates/monitor/out/monitor
	@tests/refused.py crates/monitor/out/monitor

soak:
	@tests/build.py test_soak
	@tests/soak.py crates/test_soak/out/test_soak $(MINUTES)

side:
	@tests/build.py differential_threads
	@crates/differential_threads/out/differential_threads $(or $(SEEDS),1000) $(FIRST)

witness:
	@tests/build.py monitor safepoint confirm
	@tests/witness.py crates/safepoint/out/libsafepoint.a crates/monitor/out/monitor $(or $(SEEDS),3) --liars
