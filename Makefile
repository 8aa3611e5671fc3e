# make run [FILE=path]       proves, builds and plays a file of calls to the monitor's first stage
# make run-full [FILE=path]  the same, to the monitor with all its calls
# make bench                 figures: SHA-256 and the monitor against plain code; no part of the gate
# make test                  the gate: every proof, the edits that must fail, programs and tests
FILE ?= examples/one-cell.calls
# the programs run in their crates' folders; - is standard input
path = $(if $(filter -,$(FILE)),-,$(abspath $(FILE)))

run:
	@cd crates/run_calls && rt run -- --echo $(path)

run-full:
	@cd crates/run_full && rt run -- --echo $(path)

test:
	@tools/gate

bench:
	@sh bench/run

.PHONY: run run-full test bench
