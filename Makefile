# The commands of the README, and of oracle/README.md.
.PHONY: shim cli install uninstall example run test edits compare record bench

# The C interface for x86-64: target/shim/liblepugaso.a and .so, under shim/include/lepugaso.h, which says the version. What `rt` keeps in
# crates/*/out/ is no source.
shim: target/shim/liblepugaso.so
target/shim/liblepugaso.so: crates.txt tools/shim tools/shim-object shim/include/lepugaso.h \
    $(shell find crates shim/src -path 'crates/*/out' -prune -o \( -name '*.rt' -o -name '*.antt' -o -name '*.rs' \) -print)
	@tools/shim

# The command over it: target/cli/lepugaso.
cli: target/cli/lepugaso
target/cli/lepugaso: tools/cli target/shim/liblepugaso.so shim/include/lepugaso.h $(wildcard cli/*.c cli/*.h)
	@tools/cli

# The library, the command and their man pages where others look for them, with lepugaso.pc for pkg-config. `make install PREFIX=/usr` puts
# them elsewhere; DESTDIR=FOLDER stands for / while a package is made. `make uninstall`, of the same two, removes them.
PREFIX = /usr/local
install: cli
	@tools/install '$(DESTDIR)' '$(PREFIX)'
uninstall:
	@tools/install --remove '$(DESTDIR)' '$(PREFIX)'

# The main job of a host program, in C: lay out the limits block of a receiver board; then unpack what its sensors say.
example: shim
	@tools/example

# List a layout file. `make run FILE=examples/listing.txt` lists another one.
FILE = examples/receiver.txt
run: cli
	@tools/run $(FILE)

# Everything that must hold. The last line is that of `rt ci`.
test:
	@tools/believed --check
	@tools/doors
	@tools/gate

# On what fact each wrong program of must-fail/ is refused.
edits:
	@tools/edits

# Asks wgsl-types 0.3.2 and Lepugaso the same questions (oracle/README.md). `make compare SEED=2` asks others.
SEED = 1
GIVEN = ../shared/docs/src
compare:
	@oracle/compare $(SEED) $(GIVEN)

# Writes the recorded list, crates/answers/stdin and stdout, anew.
record:
	@oracle/record $(GIVEN)

# How long writing, reading, views and sets take, beside wgsl-types and memcpy, in one process; cleaning, beside a loop in C; literals, beside
# the compiler's conversions.
bench: shim
	@bench/run $(GIVEN)
