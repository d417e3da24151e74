# Shinglebar. `make test` is the gate that every change passes.
.PHONY: test run driver report install lab fuzz fuzzer bench archive vectors captures outside outside-write fmt

# What `make run` says first: about the minutes that `make archive` takes on two cores where nothing is proved yet, reckoned and not measured.
PROVING_MINUTES = 30
# What `make test` says first: the same of the whole gate.
GATE_MINUTES = 75

ARCHIVE = target/staticlib/libshinglebar.a
DRIVER = target/driver/shinglebar-port
MADE = target/install
REPORT = target/bin/morning_report
CFLAGS = -O2 -g

# The version stands in the header; everything else takes it from there.
VERSION = $(shell sed -n 's/^.define SHINGLEBAR_VERSION "\(.*\)"$$/\1/p' include/shinglebar.h)

# Where `make install` puts things: absolute paths. DESTDIR goes in front of them and into none of them, for whoever makes a package.
PREFIX = /usr/local
BINDIR = $(PREFIX)/bin
LIBDIR = $(PREFIX)/lib
INCLUDEDIR = $(PREFIX)/include
MANDIR = $(PREFIX)/share/man

# Proves every crate, tries every must-fail edit and runs the tests.
test:
	@echo "make test: proving, wrong programs and tests take about $(GATE_MINUTES) minutes the first time"
	@.ci/run

# Proves the crates and writes the static library target/staticlib/libshinglebar.a.
archive:
	cd crates/shinglebar_c && rt lib
	install -D -m 644 crates/shinglebar_c/out/libshinglebar_c.a $(ARCHIVE)

$(ARCHIVE):
	@$(MAKE) --no-print-directory archive

# Builds everything and runs the port driver on the captures of driver/data.
run:
	@echo "make run: proving the library takes about $(PROVING_MINUTES) minutes the first time, the rest a few seconds"
	@$(MAKE) --no-print-directory archive
	@$(MAKE) --no-print-directory driver
	@driver/run.sh

# Builds the port driver; proves the library only where there is no archive.
driver: $(DRIVER)

$(DRIVER): $(wildcard driver/*.c driver/*.h) include/shinglebar.h $(ARCHIVE)
	@mkdir -p $(@D)
	$(CC) -std=c99 $(CFLAGS) -Wall -Wextra -Werror -pedantic -Iinclude driver/*.c $(ARCHIVE) -o $@

# Prints the morning report of a table file, TABLE=file; proves the program only where it is not built. The line that says the width of
# the records is no part of them.
report: $(REPORT)
	@[ -n "$(TABLE)" ] || { echo "make report: TABLE=file is needed" >&2; exit 1; }
	@if [ "$$(head -c 20 "$(TABLE)" | tr -d '\0')" = "shinglebar table 15" ]; then tail -c +21 "$(TABLE)"; else cat "$(TABLE)"; fi | $(REPORT)

# The programs, each run once on its own input; proves them only where they are not built.
target/bin/%:
	cd crates/$* && rt run <stdin >/dev/null
	install -D crates/$*/out/$* $@

# Installs header, archive, driver, pkg-config file and man page; proves the library only where there is no archive.
install: $(DRIVER) $(MADE)/shinglebar-port.1
	@case "$(PREFIX)" in /*) ;; *) echo "make install: PREFIX is no absolute path: $(PREFIX)" >&2; exit 1;; esac
	install -d "$(DESTDIR)$(BINDIR)" "$(DESTDIR)$(LIBDIR)/pkgconfig" "$(DESTDIR)$(INCLUDEDIR)" "$(DESTDIR)$(MANDIR)/man1"
	install -m 644 include/shinglebar.h "$(DESTDIR)$(INCLUDEDIR)/shinglebar.h"
	install -m 644 $(ARCHIVE) "$(DESTDIR)$(LIBDIR)/libshinglebar.a"
	install -m 755 $(DRIVER) "$(DESTDIR)$(BINDIR)/shinglebar-port"
	install -m 644 $(MADE)/shinglebar-port.1 "$(DESTDIR)$(MANDIR)/man1/shinglebar-port.1"
	sed -e 's|@PREFIX@|$(PREFIX)|' -e 's|@INCLUDEDIR@|$(INCLUDEDIR)|' -e 's|@LIBDIR@|$(LIBDIR)|' -e 's|@VERSION@|$(VERSION)|' \
	    packaging/shinglebar.pc.in >$(MADE)/shinglebar.pc
	install -m 644 $(MADE)/shinglebar.pc "$(DESTDIR)$(LIBDIR)/pkgconfig/shinglebar.pc"

$(MADE)/shinglebar-port.1: packaging/man.sh packaging/shinglebar-port.1.in include/shinglebar.h $(DRIVER)
	@mkdir -p $(@D)
	packaging/man.sh $(DRIVER) $(VERSION) >$@.made
	@mv $@.made $@

# Two drivers on a link between two network namespaces. Needs root and iproute2; status 77 where namespaces are not permitted.
lab: driver
	@driver/lab.sh

# Compares the library with the second implementation on a million random inputs for each call. SHINGLEBAR_SEED and SHINGLEBAR_CASES
# set the seed and the count.
fuzz: archive
	cd tests && SHINGLEBAR_CASES=$${SHINGLEBAR_CASES:-1000000} cargo test --offline --locked -- --nocapture

# Runs the fuzz target of fuzz/ on the C boundary with libFuzzer (clang), for a minute or SHINGLEBAR_FUZZ_SECONDS.
fuzzer: archive
	mkdir -p fuzz/target/corpus
	clang -std=c99 -O2 -g -fsanitize=fuzzer -Wall -Wextra -Werror -I include fuzz/boundary.c fuzz/mutator.c \
	    $(ARCHIVE) -o fuzz/target/boundary
	fuzz/target/boundary -max_total_time=$${SHINGLEBAR_FUZZ_SECONDS:-60} -max_len=16384 -dict=fuzz/boundary.dict \
	    -artifact_prefix=fuzz/target/ -print_final_stats=1 fuzz/target/corpus fuzz/corpus

# Times the calls beside hand-written Rust versions of them, on the same bytes in the same run. Writes docs/BENCH.md and its plots.
# First the hand-written flush must do what the library does on random messages.
bench: archive
	cd bench && cargo test --release --offline --locked && cargo run --release --offline --locked

# Writes the calls that the program `replay` makes and what the second implementation says they give (docs/REPLAY.md), and from
# them the first inputs of the fuzz target.
vectors: archive
	cd tests && cargo run --offline --locked --bin vectors && cargo run --offline --locked --bin corpus

# Writes the captures of the port driver, driver/data/*.pcap.
captures: $(ARCHIVE)
	cd tests && cargo run --offline --locked --bin captures

# Compares what tshark reads of the frames in tests/outside with what is stored there. It needs tshark and nothing else.
outside:
	@read=$$(tests/outside/dissect) || exit 1; \
	printf '%s\n' "$$read" | diff tests/outside/tshark.txt - || \
	  { echo "outside: $$(tshark --version 2>/dev/null | head -n 1) reads the frames otherwise than tests/outside/tshark.txt says" >&2; exit 1; }
	@echo "outside: tshark reads the frames as stored"

# Writes those frames again through the library, and what tshark reads of them.
outside-write: archive
	cd tests && cargo run --offline --locked --bin outside
	tests/outside/dissect >tests/outside/tshark.txt

# Lays out the Rattle and antt files.
fmt:
	for crate in crates/*/; do (cd "$$crate" && rt fmt) || exit 1; done
