# make        proves what the program stands on, a line for each crate, and leaves the program at build/crewdesk
# make run    does so where needed, and replays an example
# make try    replays the same example after a minute, for who only wants to look: it proves nothing, and says so
# make memory refuses runs of the program each request for memory in turn; it proves nothing, and takes a C compiler
# make test   the gate: proofs, must-fail edits, tests, examples and other runs, and the tables of promises
# make costs  what the gate costs from nothing, by crate, in as long as the gate takes
PROGRAM := build/crewdesk
DAY := examples/a_denial_for_rest/stdin
SOURCES := crates.txt HANDLES $(shell find crates -name out -prune -o -type f -print)

.PHONY: all run try memory test costs clean

all: $(PROGRAM)

$(PROGRAM): $(SOURCES)
	@python3 -B tools/prove.py $@

run: $(PROGRAM)
	@$(PROGRAM) replay < $(DAY)

try:
	@echo "This run is not proved: 'make run' proves the program first." >&2
	@cd crates/crewdesk_main && rt try -- replay < ../../$(DAY)

memory: $(PROGRAM)
	@sh tools/refused_memory.sh $(PROGRAM)

test:
	@sh tools/gate.sh

costs:
	@python3 -B tools/costs.py gate

clean:
	rm -rf build crates/*/out
