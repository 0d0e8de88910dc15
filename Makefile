# `make run` shows an example before and after linearization; `make test` is the gate. Both need nothing but Rattle's `rt`.
.PHONY: run test tries tool library bindings c-example examples differential bench

example = examples/axle
# Four pressures, percent, and the report as an outside number.
start = 800 810 600 800 10 @7
program = target/bin/tool_command
archive = target/staticlib/libaxcut.a
c_compiler = $(CC) -std=c99 -Wall -Wextra -pedantic -Werror -Iinclude

sources := crates.txt $(shell find crates -name '*.rt' -o -name '*.antt')
library_sources := $(filter-out crates/try_% crates/tool_%,$(sources))

run: tool
	bin/axcut dump --names $(example)/names $(example)/program.axc
	bin/axcut linearize $(example)/program.axc | bin/axcut dump --names $(example)/names

test:
	.ci/run

# The command by its tests, the Rust crate and the C examples. What is missing of the two compilers is installed.
tries: tool
	tests/tool
	command -v cc >/dev/null || { apt-get update && apt-get install -y gcc; }
	command -v cargo >/dev/null || { apt-get update && apt-get install -y cargo; }
	$(MAKE) bindings c-example

# The library against the Rust, 1,300,000 cases; its steppers against the oracle's, 300,000 calls.
differential: $(archive)
	cd oracle && cargo run --release --offline -p differential --features library -- --cases 1300000
	cd oracle && cargo run --release --offline -p differential --features library -- --calls 300000

# The command bin/axcut: proves the program and all below it, builds it and tries it.
tool: $(program)

$(program): $(sources)
	cd crates/tool_command && rt run -- --version
	mkdir -p $(@D)
	cp crates/tool_command/out/tool_command $@

# The library for C and Rust.
library: $(archive)

$(archive): $(library_sources)
	cd crates/axcut_c && rt lib
	mkdir -p $(@D)
	cp crates/axcut_c/out/libaxcut_c.a $@

# The tests of the Rust crate.
bindings: $(archive)
	cargo test --offline --manifest-path bindings/rust/Cargo.toml

# The C examples, on an example program: it is linearized, and shows the same events before and after that.
c-example: $(archive)
	mkdir -p target/c
	$(c_compiler) -o target/c/linearize examples/c/linearize.c $(archive)
	target/c/linearize $(example)/program.axc target/c/linear.axc
	cmp target/c/linear.axc $(example)/linear.axc
	$(c_compiler) -o target/c/step examples/c/step.c $(archive)
	target/c/step source $(example)/program.axc $(start) > target/c/before.txt
	target/c/step linear target/c/linear.axc $(start) > target/c/after.txt
	cmp target/c/before.txt target/c/after.txt

# Every file of examples/ anew, from the texts.
examples: tool
	examples/make

# The library and the Rust on the same images, its steppers and the oracle's machines on the same runs: time and stack.
bench: $(archive)
	cd oracle && cargo run --release --offline -p bench --features library
