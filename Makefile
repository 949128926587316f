# make run: the plate-room examples, each with its bytes before and after, then a sample event file. make test: the gate.
# The C host's targets are in host/host.mk.
.PHONY: all run test check clean

all: run

run: target/bin/plate_room
	@target/bin/plate_room
	@echo
	@$(MAKE) -s samples

# Proves a program and what it stands on, and builds it. `rt run` builds a program in order to run it: here it gets no
# input, and what it writes goes to the log.
target/bin/%: FORCE
	@mkdir -p target/bin
	@(cd crates/$* && rt run) </dev/null >target/$*.log 2>&1 || { cat target/$*.log; exit 1; }
	@install -m 755 crates/$*/out/$* $@

# Every crate, with the programs' outputs compared; without the must-fail edits and the host.
check:
	rt all test

test:
	.ci/run

clean:
	rm -rf target crates/*/out

FORCE:

include host/host.mk
