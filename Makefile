# make: plays a student's evening, records it, replays, audits and reports it. make test: the gate, the same as .ci/run.
# make command: the command that people run. make archive: the archive that C links, for this processor. make dist: what
# people install, a tarball and two Debian packages.
.PHONY: all archive command dist test
cargo = cd host && CABLEOWL_PROGRESS=/proc/$$$$/fd/2 cargo

# The build script of host/sys runs rt, which proves the crates. If a proof fails, it says which one, and nothing is
# played.
all:
	@$(cargo) run --release --offline -p command --example evening

command:
	@$(cargo) build --release --offline -p command
	@ls $(CURDIR)/host/target/release/cableowl

archive:
	@$(cargo) build --release --offline -p cableowl
	@ls target/archive/$$(uname -m)/libcableowl.a

dist:
	@tools/dist
	@ls -d $(CURDIR)/target/dist/*

test:
	@tools/gate
