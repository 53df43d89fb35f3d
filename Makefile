# Two commands for a fresh machine that has the kit.
.PHONY: run test

# Proves and builds the program `sheet` (some minutes the first time), and reads a household's sheet into a store.
run:
	@mkdir -p target
	@echo "proving and building sheet (rt run; the log is target/run.log)"
	@cd crates/sheet && (rt run -- --help > ../../target/run.log 2>&1 || (cat ../../target/run.log; false))
	crates/sheet/out/sheet crates/sheet/data/household.sheet

# The gate: every proof, every must-fail edit, every program and test.
test:
	bash .ci/run
