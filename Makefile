# The commands of this repository. Start with `make demo` and `make test`, on a machine with the kit. `make prove` proves everything.
# CONTRIBUTING.md says when to run which.

PREFIX ?= /usr/local
# Checks that the program is the one that `make build` made. A trial of installing sets this to `:` and takes any program.
BUILT = scripts/compare-build

.PHONY: demo test prove edits rows rows-try build static static-try calls definitions definitions-try secrets vectors library bindings ports long faults growth hostile bench pictures pages tour interop latchset dist dist-try install uninstall clean

# Signs and verifies a document, makes a key, encrypts and decrypts a secret, and shows what happens to changed texts and wrong keys.
demo:
	@scripts/demo

# Runs every test of the crates and the rows on unproved builds with checks on, in some six minutes on four processors. It proves nothing. The
# gate (.ci/run) begins with it.
test:
	@scripts/test

# Proves every crate from nothing, tries the must-fail edits, and runs the tests, the rows and the programs. Up to three checks run side by side, one
# per processor.
prove:
	RT_JOBS=$$(nproc | awk '{ print ($$1 < 3) ? $$1 : 3 }') rt ci

# Tries the wrong bodies in crates/*/edits, which the gate does not try: the prover must refuse each. CRATES names the crates, else all, and may name
# a part of one, as tokens/verify.
edits:
	@scripts/edits $(CRATES)

# Tries the rows in crates/rows/data with the program of crate `rows`, which it proves and builds if a source changed. The gate tries them too.
rows:
	cd crates/rows && rt run >/dev/null && cd data && ../out/rows $$(cat ../args) | diff - ../stdout

# Tries the rows: changes each kind of value that they expect, and compares the rows that then fail with those that must. FILES names files of
# rows, else all.
rows-try:
	@scripts/rows-try $(FILES)

# Proves the programs and the library for C and builds them: crates/command/out/command and crates/toolbox/out/toolbox, and liblakhdzeva.a and
# liblakhdzeva.so.3 in crates/lakhdzeva/out/built.
build:
	@scripts/build
	@scripts/build-library

# Proves the programs for a processor and links each into one that needs no library of the system, in out/static/TARGET. TARGET is x86_64 or
# aarch64 (ARM64), for which it also makes the archive of the library for C. Without TARGET it makes those for which the machine has tools.
static:
	@scripts/build-static $(TARGET)

# Builds the static programs that the machine has tools for, and tries each, the one for ARM64 by qemu-aarch64. It names what it leaves out.
static-try:
	@scripts/static-try

# Compares docs/contracts.txt (the text of each contract), docs/calls.txt (what each public call may refuse and change) and docs/AUDIT.md (which
# definitions the promises reach) with the sources. It also reads in the code what no contract can say, by the rows of scripts/lib/origins.py.
calls:
	@scripts/calls
	@scripts/aes-tables --check

# Computes the definitions in specs/ and compares them with values of the standards, of Python and, if it is installed, of its cryptography.
# Then it computes from them the answers that the rows in crates/rows/data state. It finds a mistake that a definition and the code share.
definitions:
	@scripts/definitions

# Tries `make definitions`: plants mistakes in the definitions, each alone and in a copy, and says which comparison or row finds it. It proves
# nothing.
definitions-try:
	@scripts/definitions-try

# Proves and builds the primitives as a library, marks keys and texts as undefined, and lets valgrind report each address and each branch that
# depends on them. Then it reads the machine code of AES in everything that was built. PROCESSOR names another processor.
secrets:
	@scripts/secrets $(PROCESSOR)

# Computes the test vectors of NIST that Debian's python3-cryptography-vectors installs, with the code of the crates, and those of Wycheproof
# if WYCHEPROOF names their folder. Without them it names what it leaves out.
vectors:
	@scripts/vectors

# Proves, builds and runs the two programs of examples/programs, which use the crates as docs/LIBRARY.md describes.
library:
	@scripts/library

# Proves and builds the library for C, and tries it from C, C++, Python, Rust, Go, Node.js, Lua and Java, with the inputs of `make hostile` too, from SEED.
# It also tries the packages of these languages, and the web services of examples/.
bindings:
	@scripts/bindings $(SEED)

# Runs the built program over files and streams, including ones that fail.
ports:
	@scripts/ports

# Sends 1 GiB through the commands that stream their content.
long:
	@scripts/long

# Refuses each allocation of the built program in turn, for each command.
faults:
	@scripts/faults

# Measures the time, memory, allocations, reads and writes of each command over inputs of two sizes. A cost may grow only as its row states.
growth:
	@scripts/growth

# Runs the built program over thousands of randomly damaged inputs, with a new seed each time or with SEED.
hostile:
	@scripts/hostile $(SEED)

# Measures the built program next to other programs of the machine. With OTHER=PROGRAM it measures only the commands, in turns with that
# other build. Its output goes into docs/pictures/bench.txt at a release.
bench:
	@scripts/bench $(if $(OTHER),commands $(OTHER))

# Draws the pictures of the pages, from crates.txt and docs/pictures/bench.txt.
pictures:
	@scripts/pictures

# Compares the pages and the completions with the program's table of commands and its limits, the limits and refusals of the bindings with
# the code, the pictures with their figures, and the numbers of docs/TESTING.md with the sources. It refuses long sentences in the pages.
# It tries the refusals that the pages list, the completions, install and uninstall, and runs shellcheck on the scripts that are
# installed.
pages:
	@scripts/pages
	@scripts/pictures --check
	@scripts/refusals
	@scripts/completions
	@scripts/try-install

# Runs every example of the README, the docs and the man pages, and every recipe of examples/, with the built programs. Tries the proved tools,
# and those of tools/ in dash, busybox and bash, and makes the attacks that the recipes must withstand.
tour:
	@scripts/tour
	@scripts/tools

# Sends tokens both ways between the built program and latchset's jose, jwcrypto, go-jose and ten more libraries, if they are installed. With
# SEED the tokens are random, and it takes at most five minutes.
interop:
	@scripts/interop $(if $(SEED),--seed $(SEED))

# Runs the built program and latchset's jose, and checks the differences that docs/FROM-LATCHSET.md states.
latchset:
	@scripts/latchset

# Makes a release in out/: a tarball, four Debian packages, a wheel for Python and their checksums in SHA256SUMS. If `make static` made the
# static programs, it also makes a tarball for each, and for ARM64 a Debian package and a wheel. It refuses a tree that has changes, or whose
# CHANGELOG.md does not begin with the release of VERSION.
dist:
	@scripts/dist

# Tries the release of the last commit without the kit: makes it in two folders and compares the octets, installs and removes it, and runs
# it in a bare folder and in a small Debian. It calls the library from C and Python. If lintian is installed, it must find no error in the
# packages.
dist-try:
	@scripts/dist-try

# Installs the programs that `make build` made, with the tools, man pages, completions, recipes and documents. Those for auditors and
# maintainers are in the folder internals. It lists the files and their checksums in share/doc/lakhdzeva/installed. If it would overwrite
# a file that no install listed, or one that was changed since, it names the file and changes nothing. With FORCE=1 it overwrites these
# files.
install:
	@$(BUILT)
	@scripts/install $(if $(filter 1,$(FORCE)),--force) "$(DESTDIR)$(PREFIX)"

# Removes what install listed, and the folders that it made. It names each file that was changed since or that install did not make, and
# leaves it. Without a list it removes nothing.
uninstall:
	@scripts/install --away "$(DESTDIR)$(PREFIX)"

clean:
	rm -rf crates/*/out out
