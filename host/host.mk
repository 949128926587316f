# What a C host needs: the archive, its installation, the comparison with the second program, benchmarks.
#
#   make archive                     prove the library and write target/staticlib/libmc146818.a
#   make install PREFIX=/usr/local   archive, header and pkg-config file
#   make dist                        one file to carry to a machine without the toolchain
#   make example                     build and run host/example.c
#   make compare SEED=1 CALLS=1000   compare with the second program, call by call
#   make samples                     an October night: the event program's lines beside their text, and as a picture
#   make bench                       times beside the second program, calls and event files

PREFIX ?= /usr/local
DESTDIR ?=
SEED ?= 146818
CALLS ?= 100000000

# A relative path starts here.
MC146818_ARCHIVE ?= target/staticlib/libmc146818.a
export MC146818_ARCHIVE

# Another event program can be tried through this name.
RTC_EVENTS ?= target/bin/rtc_events
export RTC_EVENTS

HOST := target/host
export CARGO_TARGET_DIR := $(CURDIR)/$(HOST)

# The header is the one place that tells the version.
VERSION := $(shell sed -n 's/^.define MC146818_VERSION "\(.*\)"/\1/p' include/mc146818.h)
DIST := mc146818-$(VERSION)-x86_64-linux

CFLAGS ?= -O2
C99 := -std=c99 -Wall -Wextra -Wpedantic -Werror

EVENT_FILES := $(HOST)/release/event_files
export SECOND_EVENTS := $(HOST)/release/second_events
BENCH_RECORDS ?= 10000000

.PHONY: archive install dist example compare samples bench event-tools

# The calls stand in the library mc146818, and mc146818_c exports them: a crate is a library or a static library, not
# both. Hosts link libmc146818.a, in which each function begins at a line of the processor's cache: else the speed of a loop
# would hang on what a host happens to link in front of it. Nothing but that is changed, which host/test sees, and an archive that
# could not be aligned does not get the name.
archive:
	cd crates/mc146818_c && rt lib
	@install -d target/staticlib
	install -m 644 crates/mc146818_c/out/libmc146818_c.a target/staticlib/aligned.a
	objcopy -D --set-section-alignment '.text*=64' target/staticlib/aligned.a
	mv target/staticlib/aligned.a target/staticlib/libmc146818.a

target/staticlib/libmc146818.a: $(wildcard crates/*/src/*.rt crates/*/specs/*.antt)
	@mkdir -p target
	@$(MAKE) --no-print-directory archive > target/archive.log 2>&1 || { cat target/archive.log; exit 1; }

install: $(MC146818_ARCHIVE)
	install -d $(DESTDIR)$(PREFIX)/lib/pkgconfig $(DESTDIR)$(PREFIX)/include
	install -m 644 $(MC146818_ARCHIVE) $(DESTDIR)$(PREFIX)/lib/libmc146818.a
	install -m 644 include/mc146818.h $(DESTDIR)$(PREFIX)/include/mc146818.h
	sed -e 's|@PREFIX@|$(PREFIX)|' -e 's|@VERSION@|$(VERSION)|' host/mc146818.pc.in \
	    > $(DESTDIR)$(PREFIX)/lib/pkgconfig/mc146818.pc
	chmod 644 $(DESTDIR)$(PREFIX)/lib/pkgconfig/mc146818.pc

# Fixed order, owner and time, so that the same inputs give the same file.
dist: $(MC146818_ARCHIVE)
	rm -rf $(HOST)/$(DIST)
	install -d $(HOST)/$(DIST)/lib $(HOST)/$(DIST)/include
	install -m 644 $(MC146818_ARCHIVE) $(HOST)/$(DIST)/lib/libmc146818.a
	install -m 644 include/mc146818.h $(HOST)/$(DIST)/include
	install -m 644 host/example.c host/example.out $(wildcard LICENSE) $(HOST)/$(DIST)
	sed 's|@VERSION@|$(VERSION)|' host/mc146818.pc.in > $(HOST)/$(DIST)/mc146818.pc.in
	sed 's|@VERSION@|$(VERSION)|' host/INSTALL.in > $(HOST)/$(DIST)/INSTALL
	tar -C $(HOST) --sort=name --owner=0 --group=0 --numeric-owner --mode=u=rwX,go=rX --mtime=@0 \
	    -cf - $(DIST) | gzip -9n > $(HOST)/$(DIST).tar.gz
	@echo $(HOST)/$(DIST).tar.gz

$(HOST)/example: host/example.c include/mc146818.h $(MC146818_ARCHIVE)
	install -d $(HOST)
	$(CC) $(C99) $(CFLAGS) -Iinclude -o $@ host/example.c $(MC146818_ARCHIVE)

example: $(HOST)/example
	$(HOST)/example

compare: $(MC146818_ARCHIVE)
	cargo run --quiet --release --offline --manifest-path host/compare/Cargo.toml -- --seed $(SEED) --calls $(CALLS)

event-tools: $(MC146818_ARCHIVE)
	cargo build --quiet --release --offline --manifest-path host/events/Cargo.toml
	cargo build --quiet --release --offline --manifest-path host/second/Cargo.toml

samples: event-tools $(RTC_EVENTS)
	@$(EVENT_FILES) show host/samples/october_night.events
	@$(EVENT_FILES) vcd host/samples/october_night.events > $(HOST)/october_night.vcd
	@echo "$(HOST)/october_night.vcd is the same run for a wave viewer"

bench: event-tools $(RTC_EVENTS)
	cargo run --quiet --release --offline --manifest-path host/bench/Cargo.toml
	@$(EVENT_FILES) bench-file $(BENCH_RECORDS) > $(HOST)/bench.bin
	@$(EVENT_FILES) bench $(HOST)/bench.bin
	@rm -f $(HOST)/bench.bin
