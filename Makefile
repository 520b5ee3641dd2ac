# make program        the program zibewoka, host/target/release/zibewoka, over the proved library
# make list FILE=..   the listing of a file of a run list, by a program in Rattle throughout
# make test           the gate: layout, every proof, every must-fail edit, every program, the host's tests
# make bench          calls of the library beside a peer in safe Rust

FILE ?= examples/document.bin

SHELL := bash
.SHELLFLAGS := -euo pipefail -c
.PHONY: program list test bench

# A command that has rt prove: each crate is named on standard error when it is proved, and all that was said is shown where
# the command fails.
log := $(CURDIR)/host/target/proved.log
prove = mkdir -p $(dir $(log)); echo 'proving what it rests on, each crate named when it is done:' >&2; \
	($(1)) 2>&1 | tee $(log) | sed -un 's/^.*\bcrate \([a-z_]*\): modules loaded.*/\1/p' >&2 || { cat $(log) >&2; exit 1; }

# The host's build script has rt make the archives, and cargo shows what such a script says with -vv alone.
program:
	@$(call prove,cd host && cargo build --release --offline -vv)

list:
	@$(call prove,cd crates/listing && rt run)
	@crates/listing/out/listing <$(FILE)

# rt ci's verdict is held back, and printed as the last line, after the host's tests; if they fail, it counts them as one more
# failed. A must-fail edit that is bad was never tried, and shows nothing: rt ci passes it, and here it counts as failed.
said := host/target/rt-ci.log
verdict := ^[0-9]* passed, [0-9]* failed$$
bad_edits := s/^rt: ok.* must-fail edits: [^;]*, \([1-9][0-9]*\) bad.*/\1/p

# Layout, lints, documents without a warning, and the tests: all of one profile, so that the archives are built once.
host_test := cargo fmt --check \
	&& cargo clippy --release --offline --all-targets -- -D warnings \
	&& RUSTDOCFLAGS='-D warnings' cargo doc --release --offline --no-deps \
	&& cargo test --release --offline

test:
	@mkdir -p host/target
	@rt ci | tee $(said) | sed -u '/$(verdict)/d' || { grep '$(verdict)' $(said); exit 1; }
	@bad=$$(sed -n '$(bad_edits)' $(said)); [ -z "$$bad" ] || { sed -n "/$(verdict)/s/ 0 failed/ $$bad failed/p" $(said); exit 1; }
	@(cd host && $(host_test)) || { sed -n '/$(verdict)/s/ 0 failed/ 1 failed/p' $(said); exit 1; }
	@grep '$(verdict)' $(said)

# The functions of both sides stand on boundaries of 64 bytes: where they lie is then not what is measured.
bench:
	@cd host && RUSTFLAGS='-C llvm-args=-align-all-functions=6' cargo bench --offline --bench compare
