# Two commands do everything on a machine with the kit: `make run` and `make test`.
.PHONY: run test

# Proves, builds and runs the program on the recording that is stored with it. The program stays as crates/desk/out/desk.
run:
	@cd crates/desk && mkdir -p out && rt run < stdin 2> out/run.log || { tail -n 40 out/run.log; exit 1; }

# Everything: all proofs from nothing, the edits that must be refused, the program's output and the tests.
test:
	.ci/run
