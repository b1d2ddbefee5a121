# Builds, tests, installs and packs Frontier; the work is done by rt, cargo and the scripts in packaging/. The lines of
# this comment that begin with 'make' are what 'make help' prints.
#
#   make            prove the library, and build the programs list and chooser
#   make demo       prove the library, build chooser, and solve the example
#   make check      the gate: all proofs, and all tests
#   make install    copy what 'make' has built to DESTDIR and PREFIX (/usr/local)
#   make disc       pack it all into target/disc/, with its digests
#   make check-disc DISC=FILE [REBUILD=no]
#                   hold a disc to its digests, and to what its commit gives when built again
#   make clean      remove everything that was built, proofs too

PREFIX = /usr/local
DESTDIR =
DISC =
REBUILD = yes

LIBRARY = target/staticlib/libfrontier.a
LIST = target/bin/list
CHOOSER = host/target/release/chooser

# what rt proves; it looks itself which of it has changed
PROVED_FILES := crates.txt $(shell find crates -type d \( -name out -o -name must-fail \) -prune -o -type f -print)

# what is set for other work must not get into the binaries, nor these settings into another make
unexport MAKEFLAGS $(filter RUSTFLAGS RUSTC_% CARGO_ENCODED_% CARGO_BUILD_% CARGO_PROFILE_% CARGO_TARGET_%,$(.VARIABLES))

.PHONY: all chooser demo check install disc check-disc clean help
.NOTPARALLEL: # rt and cargo use all processors by themselves

all: $(LIBRARY) $(LIST) chooser

$(LIBRARY): $(PROVED_FILES)
	@bash packaging/build library

$(LIST): $(PROVED_FILES)
	@bash packaging/build list

# cargo looks itself what has changed
chooser: $(LIBRARY)
	@cd host && cargo build --release --offline --target-dir target --bin chooser

demo: chooser
	@$(CHOOSER) solve examples/firmware.txt

check:
	@bash .ci/run

# builds nothing, so that root can install what somebody else has built and tried
install:
	@CHOOSER='$(CHOOSER)' DESTDIR='$(DESTDIR)' PREFIX='$(PREFIX)' bash packaging/install

disc: all
	@bash packaging/disc

check-disc:
	@REBUILD='$(REBUILD)' bash packaging/check-disc '$(DISC)'

clean:
	rm -rf target host/target crates/*/out

help:
	@sed -n 's/^#   //p' Makefile
