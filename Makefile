# `make` alone prints these lines:
#   make test       the gate: every proof, every must-fail edit, every program, the library from C and Rust
#   make demo       a small rack's story, told by the case program line by line
#   make replay     a trace, one line for each record; TRACE= which file (examples/rack.trace)
#   make lib        the C library, target/staticlib/libntp5.a; include/ntp5.h declares it
#   make example    the examples in C on the library
#   make host       the library's tests from Rust
#   make bench      instructions and times of each call, beside the host's own implementation (docs/PERFORMANCE.md)
#   make soak       random calls against the host's own implementation; COUNT= how many, SEED= which
#   make install    header, library and pkg-config file; PREFIX= (/usr/local), LIBDIR= (PREFIX/lib), DESTDIR= before both
#   make uninstall  removes these again
#   make clean      removes all that was built
.PHONY: help test demo replay lib example host bench soak install uninstall clean
.NOTPARALLEL:
TRACE = examples/rack.trace
COUNT = 10000000
SEED =
PREFIX = /usr/local
LIBDIR = $(PREFIX)/lib
DESTDIR =

help:
	@sed -n 's/^#   //p' Makefile

test:
	@tools/gate

demo:
	@tools/demo

replay:
	@tools/replay '$(TRACE)'

lib:
	@tools/lib

# A target first looks for all that it needs: the library can take minutes.
example:
	@tools/needs example rt cc
	@tools/lib
	@tools/example

host:
	@tools/needs host rt cargo cc
	@tools/lib
	@tools/host

bench:
	@tools/needs bench rt cargo cc valgrind
	@tools/lib
	@cd host && cargo run --offline --release --quiet --package compare --bin bench

soak:
	@tools/needs soak rt cargo cc
	@tools/lib
	@cd host && cargo run --offline --release --quiet --package compare --bin soak -- $(COUNT) $(SEED)

install uninstall:
	@tools/install $@ '$(PREFIX)' '$(LIBDIR)' '$(DESTDIR)'

clean:
	@rm -rf target crates/*/out host/target tests/__pycache__ tools/__pycache__
