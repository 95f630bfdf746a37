.SILENT:
.PHONY: help kit demo test edits check fmt varlist plainlist season lib link-test targets-test examples-test host host-test stack rust-test soak bench check-time efi interop volume-test convert-test records-test settings-test shares-test profile-test season-test desk-test install clean

CC = cc
CFLAGS = -std=c11 -O2 -Wall -Wextra -Werror
CARGO = CARGO_NET_OFFLINE=true CARGO_TARGET_DIR=$(CURDIR)/target/rust cargo
LIB = target/staticlib/libcapi.a
# x86_64, aarch64, riscv64 or riscv64-lp64: for which the library is made and installed
TARGET = x86_64
MADE = $(if $(filter x86_64,$(TARGET)),$(LIB),target/staticlib/libcapi-$(TARGET).a)
PREFIX = /usr/local
# a program, by its name: what it prints of its own input must be what the gate wants
BUILD = cd crates/$@ && mkdir -p out && rt run <stdin >out/said && cmp out/said stdout
# what the library is made of
SOURCES := crates.txt tools/lib tools/marks.py c/memory.c c/varstore.h $(shell find crates -name out -prune -o \( -path '*/src/*' -o -path '*/specs/*' -o -path '*/proofs/*' \) -type f -print)

# these lines; each target has its own in the comment before it
help:
	awk '/^# / { said = substr($$0, 3) } /^[a-z-]+:/ && said { sub(":.*", ""); printf "make %-14s %s\n", $$0, said } !/^# / { said = "" }' Makefile

kit:
	command -v rt >/dev/null || { echo "rt is missing: install the Rattle kit, and have its rt on the PATH" >&2; exit 1; }

# the gate: prints every step's output; the last line is rt ci's own tally, and the exit status is not 0 if any step failed
test: kit
	sh tools/gate

# prove the library and varlist, list a sample store, play power cuts in a compaction, and say what was shown
demo: kit
	echo "first the proofs, a line for each crate: about five minutes on two cores, seconds where nothing has changed"
	tools/progress target/varlist.log $(MAKE) -s varlist
	tools/progress target/lib.log $(MAKE) -s lib
	printf '\na sample store, crates/varlist/stdin, as tools/varlist lists it:\n'
	tools/varlist crates/varlist/stdin
	printf '\nc/host.c on a small flash part, whose power fails:\n'
	$(MAKE) -s host
	target/host >target/demo.out
	tools/shown target/demo.out

# the static library for firmware and other hosts: target/staticlib/libcapi.a, to be used with c/varstore.h (TARGET=aarch64, riscv64, riscv64-lp64: libcapi-TARGET.a)
lib: $(MADE)

$(LIB): $(SOURCES)
	$(MAKE) -s kit
	tools/lib

# of the module that was proved for libcapi.a
target/staticlib/libcapi-%.a: $(LIB) tools/lib-for
	tools/lib-for $*

# library, headers and pkg-config file into PREFIX (/usr/local if none is given): lib/libvarstore.a, include/varstore.h and varstore_uefi.h, lib/pkgconfig/varstore.pc
install: $(MADE)
	tools/install $(MADE) "$(PREFIX)"

# remove target and crates/*/out, where all that is made here is
clean:
	rm -rf target crates/*/out

# either calling convention, header and library of one form, varstore_uefi.h, and an installed library
link-test: $(LIB)
	tools/link-test

# the library for AArch64 and RISC-V 64: made, and run where cross compilers and qemu-user are there; the same answers as on x86-64
targets-test: $(LIB)
	tools/targets-test

# the host that a firmware engineer can start from
host: $(LIB)
	$(CC) $(CFLAGS) c/host.c $(LIB) -o target/host

# the host, and what it must print
host-test: host
	target/host crates/varlist/stdin >target/host.out
	target/host >>target/host.out
	cmp target/host.out c/host.expected

# the UEFI driver of examples/ on a part whose power fails and whose bytes die, compared with a book
examples-test: $(LIB)
	tools/examples-test

# how much stack the calls take
stack: $(LIB)
	$(CC) $(CFLAGS) c/stack.c $(LIB) -o target/stack
	target/stack

# all edits of code and of definitions, each of which must be refused; the gate tries those of wrong programs, two or three of each function, and all of definitions
edits: kit
	tools/edits-of-code
	tools/edits-of-definitions

# the second implementation, and its comparison with the engine
rust-test: $(LIB)
	$(CARGO) test --release --manifest-path rust/Cargo.toml

# each of the four random power-cut tests for ten minutes (SOAK=seconds for another time)
soak: $(LIB)
	SOAK=$${SOAK:-600} $(CARGO) test --release --manifest-path rust/Cargo.toml --test power_cuts -- --nocapture

# the engine against the second implementation: time and instruction counts, as ratios
bench: $(LIB)
	tools/bench

# the check of a full image on the library of a revision (BEFORE=REVISION, one of this kit's) and on this one: it may take no longer
check-time: $(LIB)
	tools/check-time $(BEFORE)

# the library inside a firmware, under its timer interrupts: EDK II's OVMF in qemu (TARGET=aarch64: AAVMF); first it says which packages are missing
efi:
	tools/efi --target $(TARGET) --packages
	$(MAKE) -s lib TARGET=$(TARGET)
	tools/efi --target $(TARGET)

# variables from the library to OVMF and back; first it says which packages are missing
interop: kit
	tools/interop --packages
	$(MAKE) -s lib varlist
	tools/interop

# tools/volume on volumes that the test makes
volume-test:
	tools/volume-test

# tools/convert on images and volumes that the test makes
convert-test:
	tools/convert-test

# tools/records on images and volumes that the test makes
records-test:
	tools/records-test

# tools/settings on rules, images and volumes that the test makes
settings-test:
	tools/settings-test

# tools/shares on images that the test makes
shares-test:
	tools/shares-test

# tools/profile on texts, profiles, rules and images that the test makes
profile-test:
	tools/profile-test

# tools/season on texts that the test makes; needs the program season
season-test:
	tools/season-test

# what all desk tools do alike: lost output, files, --help, the documents' transcripts; needs the programs varlist, plainlist and season
desk-test:
	tools/desk-test

# prove what has changed, try the must-fail edits, and run the programs
check: kit
	rt ci

# lay the sources out as the gate wants them
fmt: kit
	for crate in crates/*/; do (cd "$$crate" && rt fmt) || exit 1; done

# prove and build the program of tools/varlist, crates/varlist/out/varlist, and run it on the sample store
varlist: kit
	$(BUILD)

# prove and build the program of tools/plainlist, crates/plainlist/out/plainlist, and run it on its sample
plainlist: kit
	$(BUILD)

# prove and build the program of tools/season, crates/season/out/season, and run it on its sample
season: kit
	$(BUILD)
