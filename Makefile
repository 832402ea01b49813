# The folder of the Rust's source, the one that holds crates/; a relative path starts at this folder.
RUST ?= ../shared/docs/src

CARGO_FLAGS := --offline --locked

# The first tool that a host build needs and this machine lacks: cargo, the compiler by which it links, or another C compiler in CC.
MISSING = $(firstword $(foreach tool,cargo cc $(firstword $(CC)),$(if $(shell command -v $(tool) 2>/dev/null),,$(tool))))

# How many random hands `compare` plays of each game; its seed, else one from the clock. How many rounds `bench` times. How long `fuzz` runs; its seed is 1.
HANDS ?= 2000
SEED ?=
ROUNDS ?= 101
SECONDS ?= 600

# Where `install` puts things; DESTDIR stands before it, for a package that is being made.
PREFIX ?= /usr/local
DESTDIR ?=

VERSION := $(shell sed -n 's/^version = "\(.*\)"/\1/p' rust/chukkanalli-cli/Cargo.toml)
ARCHIVE := target/staticlib/libchukkanalli.a
PRODUCT := build/bin/chukkanalli
SHARED := build/lib/libchukkanalli.so.0
SAMPLE := samples/always-pass.txt

# What the crates are made of, without what rt keeps of them.
CRATES = $(shell find crates crates.txt -path 'crates/*/out' -prune -o -type f -print)

.SILENT:
.PHONY: run sample check test audit reach host-tests product product-test cases large fuzz lists archive shared python-test install install-check dist compare bench

# Evaluates a table by which both seats always pass, and replies to it in words.
run: $(PRODUCT)
	echo '$$ chukkanalli evaluate kuhn 2 1 $(SAMPLE)'
	$(PRODUCT) evaluate kuhn 2 1 $(SAMPLE)
	echo
	echo '$$ chukkanalli reply kuhn 2 1 $(SAMPLE) 0'
	$(PRODUCT) reply kuhn 2 1 $(SAMPLE) 0

# A proved program: plays a hand, then replies to a table.
sample:
	mkdir -p build
	test -x crates/sample/out/sample || echo 'proving the calls first; build/sample.log has what rt says' >&2
	(cd crates/sample && rt run) >build/sample.log 2>&1 || { cat build/sample.log; exit 1; }
	crates/sample/out/sample

# Proves what has changed since it was last proved, and runs the programs.
check:
	rt all test

# The gate. `rt ci` proves what no earlier run of it on this machine has proved, each crate from nothing, which is counted, and refuses a file that is not
# laid out; the product's tests link what it proved. The last line is that of `rt ci`; build/ci.log has all that it says.
test: audit host-tests
	scripts/gate.sh build
	$(MAKE) --no-print-directory product-test
	tail -n 1 build/ci.log

# Holds the border to C to crates/, and public contracts to what stands outside specs/internal/ and proofs/. It reads texts alone, so it needs no archive.
audit:
	if test -n '$(MISSING)'; then \
	    echo 'skipped: the audit of the border and of specs/ (there is no $(MISSING))'; \
	else \
	    cd rust && cargo test -q $(CARGO_FLAGS) -p audit && cargo run -q $(CARGO_FLAGS) -p audit; \
	fi

# The files of specs/ by who reaches them: public contracts, statements for readers, or neither. With FROM=Demand what that definition reaches.
reach:
	cd rust && cargo run -q $(CARGO_FLAGS) -p audit -- $(if $(FROM),from '$(FROM)',files)

# Host builds live in build/, where `rt ci` reads the names of files alone: no link, no crates.txt and no file of Rattle may stand there.
host-tests:
	if test -n '$(MISSING)'; then \
	    echo 'skipped: the comparison with the Rust (there is no $(MISSING))'; \
	elif ! test -f '$(RUST)/crates/reinfors-games/src/kuhn.rs'; then \
	    echo 'skipped: the comparison with the Rust (its source is not at RUST=$(RUST))'; \
	else \
	    cd compare && RUST='$(RUST)' cargo test -q $(CARGO_FLAGS); \
	fi

# The command line. It is made anew where a file that it comes from is newer, and needs no archive once it is there.
product: $(PRODUCT)

$(PRODUCT): $(CRATES) $(shell find rust -type f)
	test -z '$(MISSING)' || { echo 'the command line needs $(MISSING); make sample runs a proved program without it'; exit 1; }
	$(MAKE) --no-print-directory $(ARCHIVE)
	cd rust && cargo build -q $(CARGO_FLAGS) --release --bin chukkanalli
	mkdir -p build/bin
	cp build/cargo-product/release/chukkanalli $@

# The product's tests; the archive is made first where it is missing or older than a file of crates/.
product-test:
	if test -n '$(MISSING)'; then \
	    echo "skipped: the product's tests (there is no $(MISSING))"; \
	else \
	    $(MAKE) --no-print-directory cases && (cd rust && cargo test -q $(CARGO_FLAGS)) && $(MAKE) --no-print-directory large install-check python-test; \
	fi

# Some profiles and tables of Kuhn 5 and 6 through the archive, held to the Rust and to the exact reference: what the lists leave out.
large: $(ARCHIVE)
	if ! test -f '$(RUST)/crates/reinfors-games/src/kuhn.rs'; then \
	    echo 'skipped: Kuhn 5 and 6 beside the Rust (its source is not at RUST=$(RUST))'; \
	else \
	    cd compare && RUST='$(RUST)' cargo test -q $(CARGO_FLAGS) -p host --test large; \
	fi

# Random tables and command lines, held to a model.
fuzz: $(ARCHIVE)
	cd rust && cargo run -q $(CARGO_FLAGS) --release -p fuzz -- $(SECONDS) $(or $(SEED),1)

# Writes the committed lists anew, from the unchanged Rust.
lists:
	cd compare && RUST='$(RUST)' cargo run -q $(CARGO_FLAGS) --release --bin lists -- 2026 ../crates

# The calls for C: proves them and what they depend on, and writes $(ARCHIVE).
archive:
	command -v rt >/dev/null || { echo 'the calls are proved first, by rt, the Rattle toolchain, which is not here: README.md says more under "Two commands"' >&2; exit 1; }
	scripts/prove.sh chukkanalli build/archive.log

# The archive, where it is missing or older than a file of crates/.
$(ARCHIVE): $(CRATES)
	$(MAKE) --no-print-directory archive

# The calls as a shared library.
shared: $(SHARED)

$(SHARED): $(ARCHIVE)
	mkdir -p build/lib
	$(CC) -shared -Wl,--whole-archive $(ARCHIVE) -Wl,--no-whole-archive -Wl,-soname,libchukkanalli.so.0 -o $@

# The Python module, through the shared library; the program, where it is built, is held to it.
python-test: $(SHARED)
	if ! command -v python3 >/dev/null; then \
	    echo 'skipped: the Python module (there is no python3)'; \
	else \
	    python3 -B -m unittest discover -q python/tests; \
	fi

# The program, both libraries, the header, a pkg-config file, the Python module, the manual page and completions, below $(DESTDIR)$(PREFIX).
install: $(PRODUCT) $(SHARED)
	scripts/share.sh $(PRODUCT) build/share
	install -d '$(DESTDIR)$(PREFIX)/bin' '$(DESTDIR)$(PREFIX)/lib/pkgconfig' '$(DESTDIR)$(PREFIX)/include' '$(DESTDIR)$(PREFIX)/share/man/man1' \
	    '$(DESTDIR)$(PREFIX)/share/bash-completion/completions' '$(DESTDIR)$(PREFIX)/share/zsh/site-functions' '$(DESTDIR)$(PREFIX)/share/fish/vendor_completions.d' \
	    '$(DESTDIR)$(PREFIX)/share/chukkanalli/chukkanalli'
	install -m 755 $(PRODUCT) '$(DESTDIR)$(PREFIX)/bin/chukkanalli'
	install -m 644 $(ARCHIVE) '$(DESTDIR)$(PREFIX)/lib/libchukkanalli.a'
	install -m 755 $(SHARED) '$(DESTDIR)$(PREFIX)/lib/libchukkanalli.so.0'
	ln -sf libchukkanalli.so.0 '$(DESTDIR)$(PREFIX)/lib/libchukkanalli.so'
	install -m 644 include/chukkanalli.h '$(DESTDIR)$(PREFIX)/include/chukkanalli.h'
	printf 'prefix=%s\nlibdir=$${prefix}/lib\nincludedir=$${prefix}/include\n\nName: chukkanalli\nDescription: Kuhn and Leduc poker by proved calls\nVersion: %s\nLibs: -L$${libdir} -lchukkanalli\nCflags: -I$${includedir}\n' \
	    '$(PREFIX)' '$(VERSION)' >'$(DESTDIR)$(PREFIX)/lib/pkgconfig/chukkanalli.pc'
	install -m 644 python/chukkanalli/*.py '$(DESTDIR)$(PREFIX)/share/chukkanalli/chukkanalli/'
	install -m 644 build/share/chukkanalli.1 '$(DESTDIR)$(PREFIX)/share/man/man1/chukkanalli.1'
	install -m 644 build/share/chukkanalli.bash '$(DESTDIR)$(PREFIX)/share/bash-completion/completions/chukkanalli'
	install -m 644 build/share/_chukkanalli '$(DESTDIR)$(PREFIX)/share/zsh/site-functions/_chukkanalli'
	install -m 644 build/share/chukkanalli.fish '$(DESTDIR)$(PREFIX)/share/fish/vendor_completions.d/chukkanalli.fish'

# Installs into an empty folder, and tries what is there. It stands outside the repository, as it holds a link.
install-check:
	own=$$(mktemp -d) && trap 'rm -rf "$$own"' EXIT && \
	$(MAKE) --no-print-directory install DESTDIR="$$own" PREFIX=/usr && \
	scripts/install-check.sh "$$own/usr"

# The source of the last commit with the built program and archive beside it, which are newer than it: whoever unpacks it needs neither rt nor cargo.
# It is put together outside the repository, where `rt ci` would take its files for crates of ours.
dist: $(PRODUCT) $(ARCHIVE)
	own=$$(mktemp -d) && trap 'rm -rf "$$own"' EXIT && tree="$$own/chukkanalli-$(VERSION)" && \
	git archive --prefix='chukkanalli-$(VERSION)/' HEAD | tar -x -C "$$own" && \
	mkdir -p "$$tree/build/bin" "$$tree/target/staticlib" && \
	cp $(ARCHIVE) "$$tree/target/staticlib/" && \
	cp $(PRODUCT) "$$tree/build/bin/" && \
	tar -C "$$own" -czf 'build/chukkanalli-$(VERSION).tar.gz' 'chukkanalli-$(VERSION)'
	echo 'build/chukkanalli-$(VERSION).tar.gz'

# Document 01's cases and each call, through the header from C.
cases: $(ARCHIVE)
	mkdir -p build
	$(CC) -std=c11 -O1 -Wall -Wextra -Werror -Iinclude compare/cases.c $(ARCHIVE) -o build/cases
	build/cases

# The same, then random hands through the archive and through the unchanged Rust.
compare: archive
	$(MAKE) --no-print-directory cases
	cd compare && RUST='$(RUST)' cargo run -q $(CARGO_FLAGS) --release -p host --bin compare -- $(HANDS) $(SEED)

# The time of both on the same random hands, in one run.
bench: archive
	cd compare && RUST='$(RUST)' cargo run -q $(CARGO_FLAGS) --release -p host --bin bench -- $(ROUNDS)
