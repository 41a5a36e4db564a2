# The two commands of the README, and what they are made of.
.PHONY: demo test compare bench fmt

# Samples on the proved terminal, with the columns explained, and a page.
demo:
	@scripts/demo

# Every test. The last line printed is that of the toolchain's gate, 'N passed, 0 failed'.
test:
	@scripts/test

# The proved terminal and the proved trace program against plain Rust.
compare:
	@scripts/compare-all

# Speed of the proved side against plain Rust, as tables.
bench:
	@scripts/bench

fmt:
	@for crate in crates/*/; do (cd "$$crate" && rt fmt) || exit; done
	@scripts/cargo fmt
