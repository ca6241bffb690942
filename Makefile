# make test         the gate
# make quick        what changed since main's last merge, in minutes; not the verdict
# make edits        every edit that must fail, over what checks kept [CRATES=..]
# make run          the program `downgrade` on examples/bulletin.txt, or IN=FILE
# make try          the paper's whole case by the same program, built without its proofs: a first look
# make lib          the library in dist/: libhennelaku.a, libhennelaku.so.0, hennelaku.h
# make lib-test     tests of what is installed and of what other languages see
# make install      programs, library, header, pkg-config file, manual pages, examples; PREFIX, LIBDIR, DESTDIR and more in lib/install
# make uninstall    takes away what make install put there
# make dist         a tar file of all that is built, for those without the Rattle kit
# make relay        the programs in C, in target/relay/
# make relay-test   tests of the library through its C header, and of the commands
# make pipe-test    tests of hennelaku-pipe against a server that drops and lies
# make interop      in a real Postfix and a real Dovecot, and what mail readers show; installs them by apt-get, needs root
# make soak         hennelaku-pipe in Postfix for MINUTES=, with kills, full disks and silent servers
# make fuzz-c       every parser in C under libFuzzer, each for SECONDS=; needs clang
# make hardened     the programs by hardening-check, which it installs by apt-get
# make model        the Rust model's own tests (rust/README.md)
# make fuzz         proved call and fast Rust version against the Rust model; SECONDS=, SEED=
# make fuzz-batch   the same for the batch call
# make fuzz-mailbox the same for the mailbox's call
# make fuzz-reader  the same for the reader of Downgraded fields
# make fuzz-pairs   headers for recipients that must not show
# make bench        times of all, in docs/SPEED.md too
# make clean        removes target/, dist/ and what rt made in crates/NAME/out/
#
# All that is proved needs the Rattle kit (rt); lib, relay and their tests a C
# compiler, relay also libidn2 and libunistring, pipe-test, interop and soak also
# Python 3; model, bench, fuzz, fuzz-batch and fuzz-pairs cargo.

IN = examples/bulletin.txt
PREFIX = /usr/local
DESTDIR =
VERSION := $(shell sed -n 's/^.define HENNELAKU_VERSION_TEXT "\(.*\)"/\1/p' include/hennelaku.h)

# CFLAGS, CPPFLAGS and LDFLAGS of the environment or the command line are used. The
# C side of the library stands alone: no stack protector, which would call the C
# library, whatever they say.
CFLAGS ?= -O2
LIB_CFLAGS = -std=c99 -Wall -Wextra -Wpedantic -Wconversion -fPIC -ffreestanding -fno-stack-protector
SONAME = libhennelaku.so.0
TAR = dist/hennelaku-$(VERSION)-x86_64-linux.tar.gz
CARGO = cd rust && HENNELAKU_LIB_DIR=$(CURDIR)/dist cargo
CODE := crates.txt $(shell find crates -name out -prune -o -name '*.rt' -print)
INSTALLING = PREFIX='$(PREFIX)' LIBDIR='$(LIBDIR)' DESTDIR='$(DESTDIR)' VERSION='$(VERSION)' lib/install

.PHONY: test quick edits run try lib lib-test install uninstall dist relay relay-test pipe-test interop soak fuzz-c hardened model \
    fuzz fuzz-batch fuzz-mailbox fuzz-reader fuzz-pairs bench clean

test:
	.ci/run

quick:
	.ci/quick

edits:
	.ci/edits $(or $(CRATES),$(patsubst crates/%/must-fail,%,$(wildcard crates/*/must-fail)))

# The kit builds a program only by proving it.
run:
	@.ci/progress downgrade
	@cd crates/downgrade && rt run <$(abspath $(IN)) 2>$(CURDIR)/target/run.log || { cat $(CURDIR)/target/run.log; exit 1; }

# A first look at code that is not proved yet.
try:
	@.ci/kit --needed
	@cd crates/downgrade && rt try <stdin
	@echo "nothing is proved by this"

lib: dist/libhennelaku.a dist/$(SONAME) dist/hennelaku.h

# rt lib proves a crate and those under it, then compiles them to one archive
# with the functions that this crate exports, which needs nothing but memcpy and
# memset.
PROVED = crates/hennelaku_c/out/libhennelaku_c.a

$(PROVED): $(CODE)
	@.ci/kit --needed
	@mkdir -p target
	@(cd crates/hennelaku_c && rt lib) >target/lib.log 2>&1 || { tail -n 40 target/lib.log; exit 1; }
	@touch $@

target/lib/calls.o: lib/calls.c include/hennelaku.h
	@mkdir -p target/lib
	$(CC) $(CPPFLAGS) $(CFLAGS) $(LIB_CFLAGS) -Iinclude -c lib/calls.c -o $@

dist/libhennelaku.a: $(PROVED) target/lib/calls.o
	@mkdir -p dist
	@cp $(PROVED) $@.new
	@$(AR) rcsD $@.new target/lib/calls.o
	@mv $@.new $@

dist/$(SONAME): dist/libhennelaku.a lib/hennelaku.map
	$(CC) -shared -nostartfiles -Wl,-soname,$(SONAME) -Wl,--version-script,lib/hennelaku.map -Wl,-z,defs,-z,relro,-z,now,-z,noexecstack \
	    -Wl,--whole-archive dist/libhennelaku.a -Wl,--no-whole-archive $(LDFLAGS) -o $@

dist/hennelaku.h: include/hennelaku.h
	@mkdir -p dist
	@cp include/hennelaku.h $@

lib-test: lib
	@CC='$(CC)' lib/tests/run

install: lib relay
	@$(INSTALLING) install

uninstall:
	@$(INSTALLING) uninstall

# The tree of an installation, which may be unpacked anywhere: its pkg-config
# file goes by its own place.
dist: lib relay
	@rm -rf target/tree
	@PREFIX=/ PC_PREFIX='$${pcfiledir}/../..' DESTDIR=target/tree/hennelaku-$(VERSION) VERSION='$(VERSION)' lib/install install
	@tar -C target/tree --sort=name --owner=0 --group=0 --numeric-owner --mtime=@0 -czf $(TAR) hennelaku-$(VERSION)
	@echo $(TAR)

relay: lib
	$(MAKE) -C relay

relay-test: lib
	$(MAKE) -C relay test

pipe-test: lib
	@$(MAKE) --no-print-directory -C relay pipe-test

interop hardened: lib
	@$(MAKE) --no-print-directory -C relay $@

soak: lib
	@$(MAKE) --no-print-directory -C relay soak $(if $(MINUTES),MINUTES=$(MINUTES))

fuzz-c: lib
	@$(MAKE) --no-print-directory -C relay fuzz-c $(if $(SECONDS),SECONDS=$(SECONDS))

model:
	$(CARGO) test --release --offline --quiet

fuzz fuzz-batch fuzz-mailbox fuzz-reader fuzz-pairs: lib
	$(CARGO) run --release --offline --quiet --features proved --bin $@ -- $(if $(SEED),--seed $(SEED)) $(if $(SECONDS),--seconds $(SECONDS))

bench: lib
	$(CARGO) run --release --offline --quiet --features proved --bin bench -- --write ../docs/SPEED.md
	$(CARGO) run --release --offline --quiet --features proved --bin bench-batch

clean:
	rm -rf target dist rust/target rust/hennelaku/target crates/*/out
