# What an outsider runs. `make help` lists it.
FILE ?= examples/document.role
NAMES ?=
USERS ?=
PICTURE ?= target/picture.svg
COUNT ?= 20000
LISTS ?= 5000
PAIRS ?= 20000
MUTANTS ?= 80
PUBLIC ?= 2
EVERY ?= crates/rolecheck/src/main.rt
SEED ?= 7
SECONDS ?= 60
LONG_FILES ?= 1000000
LONG_LISTS ?= 100000
# File names, which may hold blanks, reach the recipes by the environment.
export FILE NAMES USERS PICTURE

PREFIX ?= /usr/local
BINDIR ?= $(PREFIX)/bin
INCLUDEDIR ?= $(PREFIX)/include
LIBDIR ?= $(PREFIX)/lib
MANDIR ?= $(PREFIX)/share/man

# What rt proves and writes. ARCHIVE=F, ROLECHECK=F and YERUVOI=F name files
# that are there already, to be installed instead.
PROVED = target/staticlib/libmonitor.a
ARCHIVE = $(PROVED)
CHECKED = target/bin/rolecheck
ROLECHECK = $(CHECKED)
COMMAND = host/yeruvoi/target/release/yeruvoi
YERUVOI = $(COMMAND)

# What is made of them and of the header, whose version they share.
BUILD = target/install
VERSION != sed -n 's/^.define MONITOR_VERSION "\(.*\)"/\1/p' include/monitor.h
SONAME != sed -n 's/^.define MONITOR_VERSION_MAJOR /libmonitor.so./p' include/monitor.h
SHARED = libmonitor.so.$(VERSION)
PAGES = $(BUILD)/yeruvoi.1 $(BUILD)/rolecheck.1 $(BUILD)/monitor.3

MONITOR_SOURCES != host/sources monitor_c
ROLECHECK_SOURCES != host/sources rolecheck
YERUVOI_SOURCES != find host/yeruvoi -name target -prune -o -type f -print

NEED_RT = command -v rt >/dev/null || { echo "rt, the command of the Rattle kit, is not on the path. Install the kit, then put its bin folder on the path."; exit 1; }
SAME_RT = test "$$(rt version)" = "$$(cat kit.txt)" || echo "This kit is $$(rt version); the proofs were last checked by $$(cat kit.txt)."
NEED_CARGO = command -v cargo >/dev/null || { echo "cargo is not on the path. Install Rust with cargo; the host code uses its standard library alone."; exit 1; }
NEED_DOT = command -v dot >/dev/null || { echo "dot is not on the path. Install Graphviz (Debian: graphviz)."; exit 1; }
LEGEND = $${NAMES:+--names "$$NAMES"}

# Two runs of rt, or of cargo, would get into each other's way.
.NOTPARALLEL:
.DELETE_ON_ERROR:
.PHONY: help check rights picture rolecheck example all lib install uninstall clean kit cargo
.PHONY: test prove differential lists pairs long fuzz sanitize installed bench loads growth mutation

help:
	@echo 'Of a role file FILE=F, with the names of a legend NAMES=L:'
	@echo '  make check         accepted, or number, place and cause; fails if refused'
	@echo '  make rights        what its users, or USERS="3 7", end up with'
	@echo '  make picture       orders and flow as PICTURE=target/picture.svg'
	@echo '  make rolecheck     its verdict, levels and flow, a line each'
	@echo '  make example       examples/server.c built and run on it'
	@echo 'Building, under PREFIX=/usr/local and DESTDIR:'
	@echo '  make all           prove and build all that install puts in place'
	@echo '  make lib           prove and build the archive'
	@echo '  make install       header, libraries, pkg-config file, programs, pages'
	@echo '  make uninstall     remove them; make clean: remove what was built'
	@echo 'Evidence, from SEED=7:'
	@echo '  make test          every proof from nothing, must-fail edits, host tests'
	@echo '  make prove         prove what has changed'
	@echo '  make differential  COUNT=20000 files against the second checker'
	@echo '  make lists         LISTS=5000 lists of calls against the model'
	@echo '  make pairs         PAIRS=20000 pairs of runs side by side'
	@echo '  make long          LONG_FILES=1000000 files, LONG_LISTS=100000 lists'
	@echo '  make fuzz          SECONDS=60 of fuzzing with AddressSanitizer'
	@echo '  make sanitize      the C tests under AddressSanitizer and valgrind'
	@echo '  make installed     install into a folder, build and run C and C++ there'
	@echo '  make bench         times of loads and calls; make growth: with a plot'
	@echo '  make loads         times of the loads alone, and by their stages'
	@echo '  make mutation      MUTANTS=80 small edits, and which the gate refuses'

kit:
	@$(NEED_RT)
	@$(SAME_RT)

cargo:
	@$(NEED_CARGO)

# ---- what is built. rt tells how far it is, crate by crate.

$(PROVED): $(MONITOR_SOURCES) kit.txt
	@$(NEED_RT)
	@$(SAME_RT)
	host/build archive
	@touch $@

$(CHECKED): $(ROLECHECK_SOURCES) kit.txt
	@$(NEED_RT)
	@$(SAME_RT)
	host/build rolecheck
	@touch $@

$(COMMAND): $(ARCHIVE) $(YERUVOI_SOURCES) include/monitor.h kit.txt
	@$(NEED_CARGO)
	MONITOR_LIB="$$(realpath $(ARCHIVE))" cargo build --release --offline --quiet --manifest-path host/yeruvoi/Cargo.toml
	@touch $@

# The archive's code does not depend on where it lies; -z text makes sure.
$(BUILD)/$(SHARED): $(ARCHIVE) include/monitor.map include/monitor.h
	@mkdir -p $(BUILD)
	$(CC) -shared -Wl,-soname,$(SONAME) -Wl,--version-script=include/monitor.map -Wl,-z,text,-z,defs,-z,now -o $@ -Wl,--whole-archive $(ARCHIVE) -Wl,--no-whole-archive

$(BUILD)/yeruvoi.1: man/yeruvoi.1.in include/monitor.h
	@mkdir -p $(BUILD)
	sed 's/@VERSION@/$(VERSION)/' man/yeruvoi.1.in > $@

$(BUILD)/rolecheck.1: man/rolecheck.1.in include/monitor.h
	@mkdir -p $(BUILD)
	sed 's/@VERSION@/$(VERSION)/' man/rolecheck.1.in > $@

$(BUILD)/monitor.3: man/monitor.3.in man/header-text include/monitor.h
	@mkdir -p $(BUILD)
	{ sed 's/@VERSION@/$(VERSION)/' man/monitor.3.in && man/header-text include/monitor.h; } > $@

lib: $(PROVED)

all: $(ARCHIVE) $(BUILD)/$(SHARED) $(PAGES) $(YERUVOI) $(ROLECHECK)

install: all
	{ printf 'prefix=%s\nincludedir=%s\nlibdir=%s\n' "$(PREFIX)" "$(INCLUDEDIR)" "$(LIBDIR)"; sed 's/@VERSION@/$(VERSION)/' include/monitor.pc.in; } > $(BUILD)/monitor.pc
	install -d "$(DESTDIR)$(BINDIR)" "$(DESTDIR)$(INCLUDEDIR)" "$(DESTDIR)$(LIBDIR)/pkgconfig" "$(DESTDIR)$(MANDIR)/man1" "$(DESTDIR)$(MANDIR)/man3"
	install -m 755 $(YERUVOI) "$(DESTDIR)$(BINDIR)/yeruvoi"
	install -m 755 $(ROLECHECK) "$(DESTDIR)$(BINDIR)/rolecheck"
	install -m 644 include/monitor.h "$(DESTDIR)$(INCLUDEDIR)/monitor.h"
	install -m 644 $(ARCHIVE) "$(DESTDIR)$(LIBDIR)/libmonitor.a"
	install -m 755 $(BUILD)/$(SHARED) "$(DESTDIR)$(LIBDIR)/$(SHARED)"
	ln -sf $(SHARED) "$(DESTDIR)$(LIBDIR)/$(SONAME)"
	ln -sf $(SONAME) "$(DESTDIR)$(LIBDIR)/libmonitor.so"
	install -m 644 $(BUILD)/monitor.pc "$(DESTDIR)$(LIBDIR)/pkgconfig/monitor.pc"
	install -m 644 $(BUILD)/yeruvoi.1 $(BUILD)/rolecheck.1 "$(DESTDIR)$(MANDIR)/man1/"
	install -m 644 $(BUILD)/monitor.3 "$(DESTDIR)$(MANDIR)/man3/"
	@echo "Programs find $(LIBDIR)/$(SONAME) after ldconfig, or by LD_LIBRARY_PATH."

uninstall:
	rm -f "$(DESTDIR)$(BINDIR)/yeruvoi" "$(DESTDIR)$(BINDIR)/rolecheck" "$(DESTDIR)$(INCLUDEDIR)/monitor.h"
	rm -f "$(DESTDIR)$(LIBDIR)/libmonitor.a" "$(DESTDIR)$(LIBDIR)/libmonitor.so" "$(DESTDIR)$(LIBDIR)/$(SONAME)" "$(DESTDIR)$(LIBDIR)/$(SHARED)"
	rm -f "$(DESTDIR)$(LIBDIR)/pkgconfig/monitor.pc" "$(DESTDIR)$(MANDIR)/man3/monitor.3"
	rm -f "$(DESTDIR)$(MANDIR)/man1/yeruvoi.1" "$(DESTDIR)$(MANDIR)/man1/rolecheck.1"

clean:
	rm -rf target crates/*/out host/*/target host/*/build host/fuzz/model/target

# ---- of a role file

check: $(YERUVOI)
	@$(YERUVOI) check $(LEGEND) "$$FILE"

rights: $(YERUVOI)
	@$(YERUVOI) rights $(LEGEND) "$$FILE" $$USERS

picture: $(YERUVOI)
	@$(NEED_DOT)
	@mkdir -p $(BUILD)
	@$(YERUVOI) picture $(LEGEND) "$$FILE" > $(BUILD)/picture.dot || { cat $(BUILD)/picture.dot; exit 1; }
	@dot -Tsvg $(BUILD)/picture.dot > "$$PICTURE"
	@echo "$$PICTURE"

rolecheck: $(ROLECHECK)
	@$(ROLECHECK) < "$$FILE"

example: $(ARCHIVE)
	@mkdir -p $(BUILD)
	$(CC) -std=c11 -Wall -Wextra -Werror -Iinclude -o $(BUILD)/server examples/server.c $(ARCHIVE)
	$(BUILD)/server "$$FILE"

# ---- evidence

prove: kit
	rt all check

test: kit
	.ci/run

differential: cargo $(CHECKED)
	cargo build --release --offline --quiet --manifest-path host/checker/Cargo.toml
	host/checker/target/release/differential $(CHECKED) $(COUNT) $(SEED) host/checker/kept

lists: cargo $(PROVED)
	MONITOR_LIB=$(CURDIR)/$(PROVED) cargo run --release --offline --quiet --manifest-path host/monitor/Cargo.toml -- $(LISTS) $(SEED)

pairs: cargo $(PROVED)
	MONITOR_LIB=$(CURDIR)/$(PROVED) cargo run --release --offline --quiet --manifest-path host/monitor/Cargo.toml -- --pairs $(PAIRS) $(SEED)

# The load of every file, and one of fifty through the checking program too.
long: cargo $(PROVED) $(CHECKED)
	MONITOR_LIB=$(CURDIR)/$(PROVED) cargo build --release --offline --quiet --manifest-path host/monitor/Cargo.toml
	host/monitor/target/release/files $(LONG_FILES) $(SEED) $(CHECKED) 50
	host/monitor/target/release/long $(LONG_LISTS) $(SEED)

fuzz: kit
	$(MAKE) -C host/fuzz run SECONDS=$(SECONDS) SEED=$(SEED)

sanitize: $(ARCHIVE)
	$(MAKE) -C host/c asan valgrind LIB="$$(realpath $(ARCHIVE))"

installed: $(ARCHIVE)
	LIB="$$(realpath $(ARCHIVE))" host/c/installed

bench: cargo $(PROVED)
	cd host/bench && cargo run --release --offline --quiet

loads: cargo $(PROVED)
	cd host/bench && cargo run --release --offline --quiet -- --loads

growth: cargo $(PROVED)
	cd host/bench && cargo run --release --offline --quiet -- --plot ../../docs/growth.svg

mutation: kit cargo
	python3 -B host/mutation/mutate.py --mutants $(MUTANTS) --seed $(SEED) --public $(PUBLIC) --every "$(EVERY)"
