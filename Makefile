# README.md says what each command needs.
PREFIX = /usr/local
DESTDIR =
INPUT = examples/clinic-maker-technician-firm.hex

HEADER = include/dunnarek/policy.h
ARCHIVE = target/staticlib/libgateway.a
number = $(shell sed -n 's/^\#define POLICY_LIBRARY_$(1) //p' $(HEADER))
VERSION = $(call number,MAJOR).$(call number,MINOR).$(call number,PATCH)
CARGO = cargo build --release --offline --locked --quiet --manifest-path outside/Cargo.toml

.PHONY: run program daemon test replay fuzz archive install measure measure-against clean

# Merges the lists of INPUT, a file of commented hexadecimal.
run: program
	@examples/to-bytes $(INPUT) > target/input.bytes
	@target/bin/merger < target/input.bytes

# The prover's notes stay in a log, and are shown where it refuses.
define prove
	@mkdir -p target
	@echo 'Proving and building the $@, which takes some minutes the first time; notes in target/$@.log' >&2
	@$(1) > target/$@.log 2>&1 || { cat target/$@.log >&2; exit 1; }
endef

program:
	$(call prove,tools/build merger)

# A C program with the library, answering lookups and a comparison.
daemon: archive
	$(CC) -std=c99 -O2 -Wall -Wextra -I include examples/daemon.c $(ARCHIVE) -o target/daemon
	examples/run-daemon target/daemon

test:
	.ci/run

replay:
	$(call prove,tools/build replay)

fuzz: program replay
	$(CARGO) --bin fuzz
	outside/target/release/fuzz merger target/bin/merger
	outside/target/release/fuzz replay target/bin/replay

archive:
	$(call prove,tools/build gateway_c)

install: archive
	install -d $(DESTDIR)$(PREFIX)/lib/pkgconfig $(DESTDIR)$(PREFIX)/include/dunnarek
	install -m 644 $(ARCHIVE) $(DESTDIR)$(PREFIX)/lib/libdunnarek_policy.a
	install -m 644 $(HEADER) $(DESTDIR)$(PREFIX)/include/dunnarek/policy.h
	printf '%s\n' 'prefix=$(PREFIX)' 'libdir=$${prefix}/lib' 'includedir=$${prefix}/include' '' \
	    'Name: dunnarek-policy' 'Description: Lookup in and comparison of IPsec policy lists' 'Version: $(VERSION)' \
	    'Libs: -L$${libdir} -ldunnarek_policy' 'Cflags: -I$${includedir}' \
	    > $(DESTDIR)$(PREFIX)/lib/pkgconfig/dunnarek-policy.pc

# Times beside Rust versions of the same jobs, and what the proofs take, as docs/MEASUREMENTS.md; no part of the gate.
# Proves every crate anew, which takes longest, or only those named by CHECKED and those below them. Cargo does not notice a new archive, so it starts from nothing.
CHECKED =
measure:
	mkdir -p target
	outside/check_figures $(CHECKED) > target/checking.md
	tools/build gateway_c measured
	rm -rf outside/target
	$(CARGO) --features gateway,measured --bin measure
	outside/target/release/measure docs/MEASUREMENTS.md target/checking.md

# The product's times beside those of other archives, in one run: OLD is a copy of an earlier target/staticlib with both archives.
measure-against:
	tools/build gateway_c measured
	outside/compare_archives $(OLD) target/staticlib

clean:
	rm -rf target outside/target crates/*/out
