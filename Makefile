# make test: the gate. make readings: document 01's bench readings, run and compared. make walk: the small spoken walk packed, cut and packed again.
# make edits: the must-fail edits that the gate has no time for.
# make sheet: a year of wet days, measured and drawn as docs/sheet.svg. make bindings: the Rust crate and the C header, tested.
# make compare: ours beside the original Rust. make bench: nanoseconds a sample. make real: packets of FFmpeg's encoder, read by ours.
SHELL := /bin/bash

.PHONY: test readings walk edits sheet bindings compare bench real kit

test: kit
	@tools/test

readings: kit
	@mkdir -p target; cd crates/readings && rt run <stdin >../../target/readings.stdout 2>../../target/readings.log || { cat ../../target/readings.log ../../target/readings.stdout; exit 1; }
	@cat target/readings.stdout; cmp -s target/readings.stdout crates/readings/stdout

walk: kit
	@tools/walk

edits: kit
	@tools/edits

# It takes rustc, and not the original's source.
sheet: kit
	@tools/sheet

bindings: kit
	@tools/test-bindings

# Status 3 of oracle/build: no rustc, or no source of the original; it says so, and nothing is compared.
N ?= 100000
compare: kit
	@if oracle/build; then target/oracle/oracle compare $(N); else [ $$? -eq 3 ]; fi

bench: kit
	@if oracle/build; then target/oracle/oracle bench; else [ $$? -eq 3 ]; fi

real: kit
	@if oracle/build; then oracle/real; else [ $$? -eq 3 ]; fi

# The Rattle kit is all that the first four need beyond make and bash. `sheet` takes rustc too, `bindings` cargo and cc, the last three rustc and the original's source.
kit:
	@command -v rt >/dev/null 2>&1 || { echo "The command 'rt' is not here: install the Rattle kit and put its bin folder on PATH." >&2; exit 1; }
