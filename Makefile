# make demo: four questions put to the small day, and its waiting table.  make test: the whole gate.
# make bench: the speed, beside a twin and libxml2.
.PHONY: demo test bench library program

demo: program library
	@bash demo/show

test:
	@bash tests/gate

# BEFORE=PATH names the static library of an earlier state, which then takes its turn beside the others: what a change made of the speed.
bench: library
	@if [ -n "$(BEFORE)" ]; then cc -shared -o target/before.so -Wl,-Bsymbolic,--whole-archive "$(BEFORE)" -Wl,--no-whole-archive; fi
	@ROADTHRUM_BEFORE=$(if $(BEFORE),$(CURDIR)/target/before.so) cargo run --quiet --release --offline --locked \
		--manifest-path rust/Cargo.toml -p bench

# The static library for C and Rust, and the program, with target/roadthrum to run it by. Each is proved first, unless it was and nothing has
# changed, and made for every x86-64 processor. What is as it was is left as it is, so that nothing that is built on it is built again.
library:
	@mkdir -p target/staticlib && (cd crates/roadthrum_c && rt lib --cpu x86-64) > target/library.out 2>&1 || { cat target/library.out; exit 1; }
	@cmp -s crates/roadthrum_c/out/libroadthrum_c.a target/staticlib/libroadthrum_c.a || cp crates/roadthrum_c/out/libroadthrum_c.a target/staticlib/

# The toolchain builds a program by running it; here it is run where there is no day, and what it prints is no concern.
program:
	@mkdir -p target/bin && (cd crates/roadthrum && rt run --cpu x86-64) > target/program.out 2>&1 || { cat target/program.out; exit 1; }
	@cmp -s crates/roadthrum/out/roadthrum target/bin/roadthrum || cp crates/roadthrum/out/roadthrum target/bin/
	@printf '#!/bin/sh\nexec %s "%s/target/bin/roadthrum"\n' "$$(bash machine/emulator)" "$$PWD" > target/roadthrum && chmod +x target/roadthrum
