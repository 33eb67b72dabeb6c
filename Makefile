# make test: the gate. make list: prove, build and run the listing program. make lib: the static library. make examples: the programs in C and
# Rust over it. make badinput: the listing program on bad input. make comparelist: its listings against the second program's. make compare: fresh random cases against the second program. make bench: times and
# instruction counts beside an unproved Rust program. make corpus: the stored cases of both corpora and their expected output, made anew.
.PHONY: test list lister lib examples badinput comparelist tools compare bench corpus

# the folder that make list lists
DIR ?= examples/g1

CC ?= cc
CFLAGS ?= -std=c11 -O2 -Wall -Wextra -Werror

test:
	bash .ci/run

# The listing program, proved and built (rt builds it as it runs it, in its own folder, where there is no file to list).
LISTER := crates/chainlist/out/chainlist

# needs rt alone; what is proved and built is said on standard error, so that standard output has the listing alone
list: lister
	@cd "$(DIR)" && "$(CURDIR)/$(LISTER)"

lister:
	@cd crates/chainlist && rt run >/dev/null
	@cd crates/chainlist && rt check >&2

# needs rt alone: target/staticlib/libtoadtrellis.a, for include/toadtrellis.h
lib:
	cd crates/toadtrellis_c && rt lib
	mkdir -p target/staticlib
	cp crates/toadtrellis_c/out/libtoadtrellis_c.a target/staticlib/libtoadtrellis.a

# needs a C compiler and cargo as well, and x86-64: builds the examples and holds what they list to the stored listing
examples: lib
	mkdir -p target/examples
	$(CC) $(CFLAGS) -Iinclude examples/c/list.c target/staticlib/libtoadtrellis.a -o target/examples/list
	$(CC) $(CFLAGS) -Iinclude examples/c/sizes.c target/staticlib/libtoadtrellis.a -o target/examples/sizes
	target/examples/sizes
	target/examples/list examples/g1 | cmp - crates/chainlist/stdout
	cargo test --quiet --offline --manifest-path examples/rust/Cargo.toml --target-dir target/rust
	cargo run --quiet --offline --manifest-path examples/rust/Cargo.toml --target-dir target/rust --bin list examples/g1 | cmp - crates/chainlist/stdout

badinput: lister
	scripts/badinput

# SEED and LISTS, how many, of the random cases; needs cargo as well
comparelist: lister
	scripts/comparelist $(SEED) $(or $(LISTS),300)

# needs cargo as well; compare and bench link the archive that is delivered
tools: lib
	cargo build --quiet --offline --release --manifest-path second/Cargo.toml
	cargo build --quiet --offline --release --manifest-path bench/Cargo.toml

# Another seed each time; `make compare SEED=..` does one again. COUNT cases, and a quarter as many for the writers and for the letters.
SEED := $(or $(SEED),$(shell date +%s))
COUNT := $(or $(COUNT),20000)
FEWER := $(shell expr $(COUNT) / 4)
CASES := target/compare

compare: tools
	mkdir -p $(CASES)
	@echo "seed $(SEED)"
	second/target/release/second corpus $(SEED) $(COUNT) $(CASES)/cases.bin $(CASES)/cases.txt
	second/target/release/second writers $(SEED) $(FEWER) $(CASES)/writers.bin $(CASES)/writers.txt
	second/target/release/second views $(SEED) $(FEWER) $(CASES)/views.bin $(CASES)/views.txt
	bench/target/release/compare $(SEED) $(CASES)

# counts instructions where valgrind is installed
bench: tools
	bench/target/release/bench

# The second program makes both files of crates/corpus and of crates/writer_corpus; git then says whether they are the same bytes as those stored.
STORED := crates/corpus/stdin crates/corpus/stdout crates/writer_corpus/stdin crates/writer_corpus/stdout

corpus:
	cd second && cargo run --quiet --offline --release -- corpus 7 2500 ../crates/corpus/stdin ../crates/corpus/stdout
	cd second && cargo run --quiet --offline --release -- writers 7 1000 ../crates/writer_corpus/stdin ../crates/writer_corpus/stdout
	git diff --exit-code --stat HEAD -- $(STORED)
	@echo "$(STORED): the same bytes as stored"
