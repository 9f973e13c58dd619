.PHONY: run test bench

# Proves and builds the programs and runs each on its example.
run:
	cd crates/lanes && rt run < ../../examples/office.sheet
	cd crates/replay && rt run < ../../examples/day.replay

# The gate.
test:
	.ci/run

# The proved calls against the plain Rust reference, as ratios (docs/BENCHMARKS.md).
bench:
	cd crates/installer && rt lib
	cd crates/bench_exports && rt lib
	cargo build --quiet --release --offline --locked --manifest-path reference/Cargo.toml --target-dir build/cargo --bin bench
	build/cargo/release/bench
