# Karemopus: two commands for a fresh machine are `make demo` and `make test`.
.PHONY: demo test check fmt clean

# The main job. Until the engine stands it proves what there is.
demo: check

# All tests: the prover's own gate, so that its count is the last line. It refuses a file that is not laid out.
test:
	tools/gate

# Proves every crate, over what earlier checks kept.
check:
	rt all check

fmt:
	for crate in crates/*/; do (cd $$crate && rt fmt) || exit 1; done

clean:
	rm -rf crates/*/out
