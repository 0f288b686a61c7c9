# The sheet that `make run` reads.
SHEET ?= examples/two-places.sheet

.PHONY: run test

# Proves and builds the main program, and runs it on a sheet.
run:
	cd crates/inspect && rt run < $(abspath $(SHEET))

# The gate.
test:
	bash .ci/run
