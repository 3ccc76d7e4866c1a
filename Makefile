# pipeflex: each target is a line or two of rt, the command of the Rattle kit.
PROGRAM = crates/pipeflex/out/pipeflex
EXAMPLE = examples/cantilever
PREFIX ?= /usr/local
JOBS ?= 4

.PHONY: all run examples bench validate test install clean

all: $(PROGRAM)

# Proves the crates, JOBS of them side by side, then compiles and links the program. After the gate nothing is left to prove.
$(PROGRAM): crates.txt $(shell find crates -path '*/out' -prune -o -type f \( -name '*.rt' -o -name '*.antt' \) -print)
	rt all check --jobs $(JOBS)
	cd crates/pipeflex && rt run -- analyse < ../../$(EXAMPLE).flex > /dev/null

# The report of the example, compared with the stored one.
run: $(PROGRAM)
	$(PROGRAM) analyse < $(EXAMPLE).flex | tee /dev/stderr | cmp - $(EXAMPLE).report

# What the built program writes for each example, compared with what is stored beside it.
examples: $(PROGRAM)
	for r in examples/*.report; do $(PROGRAM) analyse < $${r%.report}.flex | cmp - $$r || exit 1; done
	for t in examples/*.members; do $(PROGRAM) members < $${t%.members}.flex | cmp - $$t || exit 1; done

# Times generated models, beside CHOLMOD where that is there. Outside the gate.
bench: $(PROGRAM)
	python3 bench/bench.py $(PROGRAM)

# Compares what it writes with what others wrote: closed forms, a frame computation of its own kind, and Z88 where that is there. Outside the gate.
validate: $(PROGRAM)
	validation/run.sh $(PROGRAM)

# The gate: everything proved from nothing, every must-fail edit, test and program; then every example. Two are files of stored runs.
test:
	cmp examples/cantilever.flex crates/pipeflex/stdin && cmp examples/cantilever.report crates/pipeflex/stdout
	cmp examples/offset.flex crates/pipeflex_members/stdin && cmp examples/offset.members crates/pipeflex_members/stdout
	rt ci
	$(MAKE) examples

install: $(PROGRAM)
	install -D $(PROGRAM) $(DESTDIR)$(PREFIX)/bin/pipeflex
	install -D -m 644 man/pipeflex.1 $(DESTDIR)$(PREFIX)/share/man/man1/pipeflex.1

clean:
	rm -rf crates/*/out
