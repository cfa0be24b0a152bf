# What there is to make; `make` alone prints this list.
#
#   make try         the example by the program as it stands, unproved, in about two processor minutes; the program is
#                    kept as bin/monoio-unproved
#   make run         proves and builds the program where that is not done, and replays the example
#   make build       proves and builds the program, and leaves it as bin/monoio; if the kit keeps proofs, the gate proves
#                    none of these crates again on this machine
#   make test        the gate: every proof, mutant, test and program; it ends in `rt ci`
#   make examples    builds the program, and compares each example's reports, causes and exit status with those stored
#                    beside it, and the manual page with --help; it fails if a crate example_* never gives up
#                    something that it holds
#   make examples-quick  compares reports, causes and statuses by the program that `make test` has built, in seconds
#   make pages       compiles the first Rust example of each page, and the programs that are kept as text in tools/, unproved;
#                    the programs have to print the stored lines, and the examples what their pages say; an example that
#                    names a file has to be in it
#   make soak        random inputs for a minute (SECONDS=n), each report checked by an independent machine; their journals
#                    too; then each allocation, read and write fails in turn, scripts run with workers, sleeps in
#                    far slots take their bounded time, and each library call that leaves its object as it was is
#                    refused memory, as are the tests of channels and locks that repeat a refused call
#   make soak-threads  runs larger tests of threads once (1,000,000 parks, 32 workers, 64 threads at an inbox), and repeats
#                    the others for a minute (SECONDS=n), some of them under valgrind's helgrind
#   make year        simulates a year of a lease server (EVENTS=100000000): its memory has to stay flat, and its answers
#                    have to be those of a plain program, which rustc builds
#   make bench       measures the programs next to plain Rust programs, which rustc builds, and prints the tables of
#                    docs/PERFORMANCE.md, and each figure beside the last committed one, marked if it is 5 percent worse; it
#                    compares the manual page docs/mono_bench.1 with --help
#   make planted     tries the mutants of each folder planted/ on a copy (CRATE=name: of one crate)
#   make server      proves and builds the lease server, compares its manual page with --help, runs it on two cores with a
#                    generated load for ten seconds, checks each reply, and then does so under faults
#   make server-quick checks the checker of the lease server, and by it the server that `make test` has built, in a minute; it
#                    does nothing without python3
#   make server-calls compares the causes and statuses of the calls in tools/server/calls.txt, by the server that `make test`
#                    has built, in a second
#   make server-bench measures the lease server beside the same server on tokio; needs cargo and librust-tokio-dev
#   make view-test   opens journals in headless Chromium by tools/view.py, as a user does: the stuck task of a lost wake is
#                    found, and 100,000 lines open and move as they should; needs chromium
#   make gate-times  the gate from nothing, with the processor seconds of each crate

WORDS = replay attached 16 16 16
EXAMPLE = examples/both_roundings.events
PROGRAM = bin/monoio
CRATE =
SECONDS = 60
SIZE =
EVENTS = 100000000

.PHONY: help run build has-rt has-rustc test compare-examples examples examples-quick pages soak soak-threads year try bench planted gate-times build-server server server-quick compare-calls server-calls server-bench view-test

help:
	@sed -n 's/^#   //p' Makefile

run: build
	bin/monoio $(WORDS) < $(EXAMPLE)

build: has-rt
	@python3 tools/build.py monoio

# A sentence if a tool is missing.
has-rt:
	@command -v rt > /dev/null || { echo 'the Rattle kit is missing: put its command rt on the path'; exit 1; }

has-rustc:
	@command -v rustc > /dev/null || { echo 'rustc is missing: it builds the plain Rust programs of tools/bench'; exit 1; }

test: has-rt
	@! command -v python3 > /dev/null || { python3 tools/sections.py && python3 tools/recipes.py && \
	    python3 tools/calls.py --check && python3 tools/cookbook.py --check; }
	rt ci
	@said=$$($(MAKE) --no-print-directory examples-quick server-calls) || { echo "$$said"; exit 1; }

compare-examples:
	@made=$$(mktemp -d); trap 'rm -r $$made' EXIT; for input in examples/*.events; do \
	    name=$${input%.events}; \
	    words=$$(cat $$name.words 2> /dev/null || echo '$(WORDS)'); \
	    cat $$name.causes 2> /dev/null > $$made/causes; \
	    status=0; $(PROGRAM) $$words < $$input > $$made/reports 2> $$made/said || status=$$?; \
	    cmp -s $$made/reports $$name.reports || { echo "$$input: not the stored reports"; exit 1; }; \
	    cmp -s $$made/said $$made/causes || { echo "$$input: not the stored causes"; exit 1; }; \
	    [ $$status = $$(cat $$name.status 2> /dev/null || echo 0) ] || { echo "$$input: exit status $$status"; exit 1; }; \
	done; echo 'each example has its stored reports, causes and exit status'

examples: build compare-examples
	@python3 tools/man_page.py bin/monoio
	@python3 tools/give_up.py

examples-quick:
	@[ ! -x crates/monoio/out/monoio ] || $(MAKE) --no-print-directory compare-examples PROGRAM=crates/monoio/out/monoio

pages: has-rt
	@python3 tools/cookbook.py --check
	@python3 tools/pages.py
	@python3 tools/build.py --try mono_bench
	@python3 tools/build.py --try test_out_of_memory

soak: build
	python3 tools/soak/soak.py bin/monoio $(SECONDS)
	python3 tools/soak/faults.py bin/monoio
	python3 tools/soak/scripts.py bin/monoio
	python3 tools/soak/far.py bin/monoio
	@python3 tools/build.py test_out_of_memory bin/refused
	python3 tools/soak/refused.py bin/refused
	@python3 tools/build.py test_sync bin/refused_tests
	python3 tools/soak/refused_tests.py bin/refused_tests

soak-threads: has-rt
	python3 tools/soak/threads.py $(SECONDS)

year: has-rustc has-rt
	@python3 tools/build.py mono_bench
	@rustc --edition 2021 -C opt-level=3 tools/bench/year.rs -o bin/year
	@python3 tools/soak/year.py bin/mono_bench bin/year $(EVENTS)

try: has-rt
	@echo 'unproved: this runs the program before any proof'
	@python3 tools/unproved.py bin/monoio-unproved $(WORDS) < $(EXAMPLE)

bench: has-rustc build
	@python3 tools/build.py mono_bench
	@python3 tools/help_page.py bin/mono_bench
	@python3 tools/bench/run.py bin/monoio bin/mono_bench $(SIZE)

planted: has-rt
	python3 tools/planted.py $(CRATE)

view-test:
	@python3 tools/view_test.py

gate-times: has-rt
	python3 tools/gate_times.py

# The program of the server, kept as bin/lease_server.
build-server: has-rt
	@python3 tools/build.py lease_server

server: build-server
	@python3 tools/server/check_test.py
	@python3 tools/help_page.py bin/lease_server
	python3 tools/server/run.py bin/lease_server 10
	python3 tools/server/faults.py bin/lease_server

BUILT = crates/lease_server/out/lease_server

server-quick:
	@! command -v python3 > /dev/null || python3 tools/server/check_test.py
	@! command -v python3 > /dev/null || [ ! -x $(BUILT) ] || { python3 tools/server/run.py $(BUILT) 7 && \
	    python3 tools/server/faults.py $(BUILT) hostile quiet reader end failed; }

# Each call of the stored lines is made anew.
CALLS = tools/server/calls.txt

compare-calls:
	@lease_server() { $(BUILT) "$$@"; }; sed -n 's/^\$$ //p' $(CALLS) | while read -r call; do printf '$$ %s\n' "$$call"; \
	    status=0; (eval "$$call") < /dev/null 2>&1 || status=$$?; echo "status $$status"; \
	done | diff $(CALLS) - || { echo "$(CALLS): calls with other causes or statuses"; exit 1; }; \
	echo 'each call has its stored cause and exit status'

server-calls:
	@[ ! -x $(BUILT) ] || $(MAKE) --no-print-directory compare-calls

server-bench: build-server
	tools/server/build_peer.sh bin
	python3 tools/server/figures.py bin/lease_server bin/lease_peer
