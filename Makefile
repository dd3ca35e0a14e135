# The targets, by `make help`, which is what `make` alone does.
PROGRAM := crates/estserve/out/estserve
BENCHES := crates/benches/out/benches
LAB := crates/estlab/out/estlab
LIBRARY := crates/est_embed/out/libestserve_react.a
ASKS_LAB := $(if $(wildcard crates/estlab/src),--lab)
PREFIX ?= /usr/local
# rt ci proves as many crates side by side as RT_JOBS says, each by one job: a second job at one crate costs more than it saves.
CORES := $(shell nproc)

.PHONY: help doctor try run build abro library targets examples client lab socket gateway hostile soak documents test check bench faults times install setup package package-check container

help:
	@echo 'make doctor    say what of all that is used here is installed, what the rest is for, and how to get it'
	@echo 'make try       run the opening script on the program as it stands, built WITHOUT proof: about a minute'
	@echo 'make run       prove what is needed, a line for each crate, and run the opening script on the proved program'
	@echo 'make test      the gate: documents, how code is written, the client, the server, the gateway, hostile use, refused memory, examples, what must not compile, and then all proofs,'
	@echo '               wrong bodies, tests and stored runs, and over what was proved the examples for C and random kernels; the last line is "N passed, M failed"'
	@echo 'make check CRATE=NAME  after a change of one crate: its proof and its wrong bodies, and the proofs and tests of all above it;'
	@echo '               says first how long that takes'
	@echo 'make build     as make run, without the script'
	@echo 'make examples  run each script and controller of examples, and each dialogue of tests and of the client, on the program, built without proof, and compare its answers'
	@echo 'make client    the tests of the client and of the tutorial, on the program built WITHOUT proof'
	@echo 'make lab       random modules and mistakes made on purpose, asked of estlab, on the programs built WITHOUT proof'
	@echo 'make socket    the tests of the server over its socket, on the program built WITHOUT proof'
	@echo 'make gateway   the tests of the team'"'"'s gateway and its page, on the program built WITHOUT proof'
	@echo 'make faults    each growth of memory refused in turn, of each command and of whole runs, on the program built WITHOUT proof'
	@echo 'make hostile   lines that are cut or wrong, full journals and clients that go away, on the program built WITHOUT proof'
	@echo 'make soak      hostile, with all journals filled and a soak of ten minutes, half an hour of faults of the gateway, and the instants of 2,000'
	@echo '               random modules beside the rules; make build, and then'
	@echo '               make soak ESTSERVE=$$PWD/$(PROGRAM) takes the proved program; no part of make test'
	@echo 'make abro      the waves of ABRO, by the client, on the program built WITHOUT proof: about a minute, and at once from then on'
	@echo 'make library   prove and build the library for C programs, $(LIBRARY); after rt ci over what that has proved'
	@echo 'make targets   make library, and then run the examples of targets in C, C++, Python and Rust'
	@echo 'make install   put the proved program, the client, its page of the manual and completions under PREFIX (/usr/local), and the library for C'
	@echo '               where it was built'
	@echo 'make setup     the tests of make doctor, make run and the package, which is installed on a bare Debian, on the program built WITHOUT proof'
	@echo 'make package LOG=FILE  a package for Debian and an archive, with what was proved by the run of rt ci that wrote FILE; without LOG it is named unproved'
	@echo 'make package-check LOG=FILE  makes that package, sees that another folder gives the same program, and installs it on a bare Debian'
	@echo 'make container builds the image of the gateway, localhost/estserve, with buildah, and tries it; no part of make test'
	@echo 'make documents write the lists of docs/generated anew from the sources'
	@echo 'make bench     prove and build, and then time commands, instants, texts, policies and the socket, and see how loads take memory'
	@echo 'make times     the proofs, wrong bodies and tests of make test, and a table of the time that each crate takes'

doctor:
	@python3 scripts/doctor.py

try:
	@echo 'This program is built WITHOUT proof; make run proves it first.' >&2
	@cd crates/estserve && rt try -- script < stdin

run:
	@python3 scripts/run.py estserve script < crates/estserve/stdin

build:
	@python3 scripts/run.py estserve script < /dev/null
	@$(if $(ASKS_LAB),python3 scripts/run.py estlab < /dev/null)

abro:
	@echo 'This program is built WITHOUT proof; make build proves it first.' >&2
	@python3 clients/estserve.py run examples/abro/abro.strl --inputs examples/abro/abro.inputs --wave --unproved

library:
	@python3 scripts/library.py

targets: library
	tests/targets/run

install:
	@LIBRARY='$(wildcard $(LIBRARY))' clients/install '$(PREFIX)' $(PROGRAM) $(wildcard $(LAB))

setup:
	tests/setup/run

# rt ci leaves the programs that it built, and not the library for C
package container package-check: $(if $(LOG),library)

package:
	@python3 scripts/package.py $(if $(LOG),--log '$(LOG)')

container:
	tests/setup/run test_container
	packaging/container "$$(python3 scripts/package.py $(if $(LOG),--log '$(LOG)'))"

package-check:
	tests/setup/same_program
	PACKAGE=$$(python3 scripts/package.py $(if $(LOG),--log '$(LOG)')) && PACKAGE=$$PACKAGE tests/setup/run test_bare

examples:
	python3 scripts/examples.py

client:
	python3 scripts/trial.py $(ASKS_LAB) clients/tests/run

lab:
	tests/lab/run

socket:
	tests/socket/run

gateway:
	gateway/tests/run

hostile:
	tests/hostile/run

soak:
	tests/hostile/run --long
	gateway/tests/run --soak
	tests/lab/run --soak

documents:
	python3 scripts/version.py
	python3 scripts/reading_list.py
	python3 scripts/wrong_bodies.py
	python3 scripts/contracts.py
	python3 scripts/crate_list.py
	python3 scripts/stated_twice.py
	python3 scripts/proof_lines.py --write
	python3 tests/documents.py

test:
	python3 tests/documents.py
	python3 tests/style.py
	python3 scripts/trial.py $(ASKS_LAB) sh -c 'clients/tests/run && $(if $(ASKS_LAB),tests/lab/run &&) tests/socket/run && tests/journals/walk && gateway/tests/run && tests/hostile/run && tests/faults/run && tests/setup/run'
	python3 tests/journals/run
	python3 tests/must-not-compile/run
	tests/targets/run --compile
	RT_JOBS=$(CORES) python3 scripts/gate.py

check:
	@python3 scripts/check.py $(CRATE)

bench: build library
	python3 bench/commands.py $(PROGRAM)
	python3 bench/load_commands.py $(PROGRAM)
	python3 bench/memory.py $(PROGRAM)
	python3 bench/expressions.py $(PROGRAM)
	@python3 scripts/run.py benches < crates/benches/stdin > /dev/null
	python3 bench/instants.py $(BENCHES)
	python3 bench/engines.py $(BENCHES) 500000
	python3 bench/tables.py $(BENCHES) 100000
	python3 bench/tables.py port 20000
	python3 bench/port.py --looks
	python3 bench/orders.py
	python3 bench/worklist.py $(BENCHES)
	python3 bench/worklist.py --plain $(BENCHES) 5
	python3 bench/worklist.py --orders $(BENCHES)
	python3 bench/worklist.py --loads $(BENCHES)
	python3 bench/worklist.py --exponents $(BENCHES)
	python3 bench/icarus.py $(BENCHES)
	python3 bench/texts.py $(BENCHES)
	python3 bench/loads.py $(BENCHES)
	python3 bench/loads.py $(BENCHES) --search 300
	python3 bench/policies.py $(BENCHES)
	ESTLAB=$(LAB) ESTSERVE=$(PROGRAM) python3 bench/targets.py $(LIBRARY)
	python3 bench/explore.py $(LAB) $(BENCHES)
	python3 bench/explore.py --million $(LAB)
	python3 bench/socket.py $(PROGRAM) $(BENCHES)
	python3 bench/closing.py $(PROGRAM)
	python3 bench/waits.py $(PROGRAM)
	python3 bench/gateway.py $(PROGRAM)
	python3 bench/client.py $(PROGRAM)
	python3 bench/inside.py $(LAB) $(BENCHES) $(PROGRAM)

faults:
	tests/faults/run

times:
	RT_JOBS=$(CORES) python3 scripts/times.py
