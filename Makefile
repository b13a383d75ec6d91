# The main job, the tests and the measurements. README.md says what each needs.

# The Rust that the library is compared with; the comparison is skipped where it is not there.
NOMT_SRC ?= ../shared/docs/src/nomt/src
export NOMT_SRC

LIB := target/staticlib/libmopsienna.a
SIZED := target/staticlib/libsized.a
ORACLE := cargo run --quiet --release --manifest-path oracle/Cargo.toml
CC11 := cc -std=c11 -Wall -Wextra -Werror -O1 -Iinclude

.PHONY: run test lib sized interface totals limits example memcheck compare record cuts bench count times

# Builds the sizing program and runs it: on standard input, or on a sample where that is a terminal.
run:
	@tools/prove run sizing target/bin/sizing
	@if [ -t 0 ]; then printf '1\n61381\n0\n7a\n' | target/bin/sizing; else target/bin/sizing; fi

# Everything that a change must pass. The gate, rt ci, comes last.
test: interface totals limits example sized
	@if [ -d "$(NOMT_SRC)" ]; then $(ORACLE) -p compare -- --short && $(ORACLE) -p compare -- --self-test; \
	else echo "comparison with the Rust: skipped, there is no $(NOMT_SRC)"; fi
	@if command -v cargo >/dev/null; then $(ORACLE) -p cuts -- --short && $(ORACLE) -p cuts -- --self-test; \
	else echo "cuts: skipped, there is no cargo"; fi
	@tools/gate

# The static library, proved.
lib:
	@tools/prove lib mopsienna_c $(LIB)

# The operations at any page size, for the comparison, the cuts and the limits.
sized:
	@tools/prove lib sized_c $(SIZED)

# The C interface as a C program uses it, through the headers: at pages of 4,096 bytes, and of 1,024, as the next two.
interface: lib
	@$(CC11) -o target/interface tests/interface.c $(LIB)
	@$(CC11) -DPANEL -o target/interface_panel tests/interface.c $(LIB)
	@target/interface
	@target/interface_panel

# Values of the least size of which the two totals differ, chains of either total, and damaged ones.
totals: lib
	@$(CC11) -o target/totals tests/totals.c $(LIB)
	@$(CC11) -DPANEL -o target/totals_panel tests/totals.c $(LIB)
	@target/totals
	@target/totals_panel

# The limits: the largest bump, value and stores, under a small stack.
limits: lib sized
	@$(CC11) -pthread -o target/limits tests/limits.c $(LIB) $(SIZED)
	@$(CC11) -DPANEL -pthread -o target/limits_panel tests/limits.c $(LIB) $(SIZED)
	@target/limits
	@target/limits_panel

# The first program: saves on a store in memory, the last of which is cut.
example: lib
	@$(CC11) -o target/save examples/save.c $(LIB)
	@target/save

# The C programs under valgrind, which must have nothing to report. It maps no store of 1 TiB; here it has 2^22 pages, and the largest bit
# map is for so many.
memcheck: interface totals limits example
	@valgrind --quiet --error-exitcode=1 target/interface
	@valgrind --quiet --error-exitcode=1 target/interface_panel
	@valgrind --quiet --error-exitcode=1 target/totals
	@valgrind --quiet --error-exitcode=1 target/totals_panel
	@valgrind --quiet --error-exitcode=1 target/limits 22
	@valgrind --quiet --error-exitcode=1 target/limits_panel 22
	@valgrind --quiet --error-exitcode=1 target/save

# The library beside the Rust, at length.
compare: lib sized
	@$(ORACLE) -p compare -- $(ARGS)

# The recorded answers that crates/replay compares with, the same for the same seed, and what it prints if all agree.
record: lib sized
	@$(ORACLE) -p compare -- --record crates/replay/stdin --count 20000 | tail -1
	@echo "replayed $$(grep -vc '^#' crates/replay/stdin) calls, 0 wrong" >crates/replay/stdout

# Saves cut on a simulated disk, in every way or in many.
cuts: lib sized
	@$(ORACLE) -p cuts -- $(ARGS)

# The library and the Rust, timed in turn; with BEFORE=COMMIT also the library of that commit, and with PATCH=FILE with that patch.
bench: lib sized
	@$(if $(BEFORE),tools/before $(BEFORE) $(PATCH))
	@$(ORACLE) -p bench $(if $(BEFORE),--features before) -- $(ARGS)

# The instructions of one call on each side, counted by callgrind.
count: lib sized
	@cargo build --quiet --release --manifest-path oracle/Cargo.toml -p bench
	@python3 docs/count.py

# How long each crate's check takes, from nothing: those below it are proved already, as the lines of crates.txt stand in order.
times:
	@rm -rf crates/*/out
	@for crate in $$(sed -n 's/^\([a-z_]*\)[: ].*/\1/p' crates.txt); do \
	start=$$(date +%s); (cd crates/$$crate && rt check >/dev/null 2>&1) || exit 1; echo "$$crate $$(( $$(date +%s) - start )) s"; done
