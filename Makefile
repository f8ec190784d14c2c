# make test     every check, as .ci/run does
# make run      the receiving bench: the papers' cases and the twins, each with what was expected and what came
# make show     shows the items of the sample datagrams
# make replay   runs the example recording through a member table
# make archive  target/staticlib/libprunepocket.a, for C or Rust to link
# make install  header, archive and pkg-config file under PREFIX, by way of DESTDIR
# make host     the example host, on the loopback
# make ctest    the C tests
# make rtest    the Rust tests
# make bench    times the archive beside a Rust decoder, encoder, table and replay
# make fuzz     coverage-guided comparison for FUZZ_SECONDS (60) a target; not part of make test
# make fuzz-faults  shows that planted faults are found by it
# make clean    removes all that was built

VERSION = 0.1.0
PREFIX = /usr/local
DESTDIR =

ARCHIVE = target/staticlib/libprunepocket.a

.PHONY: test run show replay archive install host ctest rtest bench fuzz fuzz-faults clean

test:
	@tools/test

run:
	tools/program receiving_bench
	target/bin/receiving_bench < crates/receiving_bench/stdin

show:
	tools/program show_datagram
	target/bin/show_datagram < samples/compound.bin
	target/bin/show_datagram --reduced-size < samples/reduced.bin

replay:
	tools/program replay_recording
	target/bin/replay_recording < crates/replay_recording/stdin

archive:
	tools/archive

# Proved anew only where a source is newer: whoever installs may have no kit.
$(ARCHIVE): $(shell find crates -name out -prune -o -type f -print)
	tools/archive

install: $(ARCHIVE)
	tools/install '$(VERSION)' '$(PREFIX)' '$(DESTDIR)'

target/c/host: examples/host.c include/prunepocket.h $(ARCHIVE)
	mkdir -p target/c
	$(CC) -std=c11 -Wall -Wextra -Werror -g -Iinclude -o $@ examples/host.c $(ARCHIVE)

host: target/c/host
	target/c/host

ctest: archive
	tools/test-c

rtest: archive
	tools/test-rust

bench: archive
	cd bench && CARGO_TARGET_DIR="$$PWD/../target/cargo" cargo run --release --offline

fuzz: archive
	tools/fuzz

fuzz-faults: archive
	tools/fuzz-faults

clean:
	rm -rf target crates/*/out bindings/target tests/target bench/target
