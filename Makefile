# make: builds the catalogue program and shows the catalogue of a small store. make test: the gate.
# make board: the library for x86-64, target/staticlib/libboard.a, and a host program over it, target/board.
# make board32: the library for the board's own IA-32 processor, which MARCH names: i386, i486, pentium,
# pentiumpro or pentium2. PIC=1: position-independent code. The next two need gcc -m32:
# make test32: holds it to the x86-64 one. make bench32: times both.
# The rest needs cargo:
# make vectors: writes the vectors again. make differ: compares the library with the second program.
# make bench: times it beside plain Rust, in two builds.
.PHONY: all test archive board board32 test32 bench32 vectors differ bench

CALLS = 1000000
SEED = 1
RUNS = 5
MARCH = pentiumpro
PIC = 0
VECTORS = crates/test_vectors
REFERENCE = cargo run --release --quiet --manifest-path reference/Cargo.toml
CFLAGS = -std=c11 -Wall -Wextra -Werror -pedantic -O2

all:
	cd crates/catalogue && rt run < stdin

test:
	.ci/run

archive:
	cd crates/board_c && rt lib
	mkdir -p target/staticlib
	cp crates/board_c/out/libboard_c.a target/staticlib/libboard.a

board: archive
	$(CC) $(CFLAGS) -Iinclude examples/board.c target/staticlib/libboard.a -o target/board

board32:
	MARCH=$(MARCH) PIC=$(PIC) ./board32.sh

test32:
	MARCH=$(MARCH) CALLS=$(CALLS) SEED=$(SEED) VECTORS=$(VECTORS) tests/ia32.sh

bench32:
	MARCH=$(MARCH) RUNS=$(RUNS) tests/times.sh

vectors:
	$(REFERENCE) -- vectors crates/test_vectors

differ: archive
	$(REFERENCE) --features board -- differ $(CALLS) $(SEED)

bench: archive
	$(REFERENCE) --features board -- bench $(RUNS)
	$(REFERENCE) --features board,shifted -- bench $(RUNS)

# make reference-test: the second program's own tests, which don't need the library.
.PHONY: reference-test
reference-test:
	cargo test --quiet --manifest-path reference/Cargo.toml
