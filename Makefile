# What people run here. `make` alone says what there is.
.PHONY: help demo demo-trace strips strips-test replay replay-test test more vectors vectors-write format lib install uninstall install-test
.PHONY: png readme face loops rust compare faults bench worst
# Targets share the library and target/; rt and cargo use all processors by themselves.
.NOTPARALLEL:

help:
	@echo "make demo           the camera's picture without one block: what came of each strip, and pictures in target/demo.png and target/demo.pgm"
	@echo 'make strips         prove and build the program bin/strips, which reports what came of a picture'
	@echo 'make strips-test    run it on whole, patchy and broken pictures, and compare what it prints'
	@echo 'make demo-trace     a recorded trace of the bus: how each message was answered, and what came of the picture'
	@echo 'make replay         prove and build the program bin/replay, which replays a trace and shows the picture that came'
	@echo 'make replay-test    run it on whole, cut, long and broken traces, and compare what it prints'
	@echo 'make png            have another reader read the PNG files that bin/strips writes (needs python3, netpbm)'
	@echo 'make test           prove every crate, try every must-fail edit, run every program: the gate'
	@echo 'make more           what the gate does not run: every other test of this list, without the two measurements at its end (some minutes)'
	@echo 'make vectors        compute the expected answers of the vectors anew, compare, and try mistakes against them (needs python3)'
	@echo 'make vectors-write  write them instead (needs python3)'
	@echo 'make format         lay out every source and proof file'
	@echo 'make lib            prove the library and build it for C, C++ and Rust'
	@echo 'make install        install header, library and a pkg-config file under PREFIX=/usr/local, in DESTDIR= if it is given'
	@echo 'make uninstall      take them away again'
	@echo 'make install-test   install under target/, compile an example with what is there, and uninstall (needs gcc, pkg-config)'
	@echo "make readme         compile and run README's example in C (needs gcc)"
	@echo 'make face           compile the header as C and C++, call each of its functions, compare versions (needs gcc, g++)'
	@echo 'make loops          look at the machine code: no loop over pixels divides or multiplies (needs gcc, python3)'
	@echo 'make rust           build, test and run the Rust binding (needs cargo)'
	@echo 'make compare        compare with libtiff on COUNT=5000 random pictures from SEED=1 (a minute; needs gcc, libtiff-dev)'
	@echo 'make faults         make mistakes between compare and the library: it must notice each (needs gcc, libtiff-dev)'
	@echo 'make bench          time the library beside libtiff, and its receiver beside memcpy (needs gcc, libtiff-dev); with BEFORE=ARCHIVE'
	@echo '                    beside another build of it too, in the same run'
	@echo 'make worst          instructions for each unit charged, and the deepest stack (needs gcc, libtiff-dev, valgrind)'
	@echo
	@echo 'What a command needs is named where it is missing; with INSTALL=1 behind it, it is installed (on Debian, as root).'

strips:
	@tools/program strips

# Block 44 of 85 is lost, which has bytes of strip 31 alone.
demo: strips
	@{ head -c 44 /dev/zero | tr '\0' '\1'; printf '\0'; head -c 40 /dev/zero | tr '\0' '\1'; } >target/demo.map
	@for kind in pgm png; do bin/strips $(CAMERA) target/demo.map target/demo.$$kind >target/demo.$$kind.txt; done
	@{ cat target/demo.pgm.txt; tail -n 1 target/demo.png.txt; } | tee target/demo.txt
	@cmp -s target/demo.png docs/demo.png || { echo 'target/demo.png differs from docs/demo.png, the picture that README shows'; exit 1; }
	@sed -n '/^```text$$/,/^```$$/p' README.md | sed -e 1d -e '$$d' | cmp -s - target/demo.txt || { echo 'README shows another report'; exit 1; }

strips-test: strips
	tests/strips.sh

replay:
	@tools/program replay

# In a folder of its own, so that the names are those of the expected report.
demo-trace: replay
	@mkdir -p target/demo-trace
	@cp crates/replay/data/demo.trace target/demo-trace
	@cd target/demo-trace && ../../bin/replay demo.trace picture.png | tee report.txt
	@cmp -s target/demo-trace/report.txt crates/replay/stdout || { echo 'this is not what crates/replay/stdout has'; exit 1; }

replay-test: replay strips
	tests/replay.sh

png:
	@tools/need netpbm python3
	@$(MAKE) --no-print-directory strips
	tests/png.sh

test:
	@.ci/run

# The gate needs the kit alone; these need more. Not here are bench and worst, which measure.
more: vectors lib demo strips-test demo-trace replay-test png readme face loops install-test rust compare faults

vectors:
	@tools/need python3
	python3 tests/vectors.py
	python3 tests/vectors.py --wrong
	python3 tests/incident.py
	python3 tests/trace.py

vectors-write:
	@tools/need python3
	python3 tests/vectors.py --write
	python3 tests/incident.py --write
	python3 tests/trace.py --write

format:
	@for crate in crates/*/; do (cd "$$crate" && rt fmt) || exit; done

lib:
	@archive=$$(tools/archive) && echo "for programs of this machine: $$archive"
	@echo 'for programs of x86-64 Linux: target/staticlib/libchelmesut.a'
	@echo 'the header: include/chelmesut.h'

PREFIX = /usr/local
DESTDIR =

install:
	@tools/install '$(PREFIX)' '$(DESTDIR)'

uninstall:
	@tools/install -u '$(PREFIX)' '$(DESTDIR)'

install-test:
	@tools/need gcc pkg-config
	@tests/c/installed.sh README.md $(CAMERA)

# What follows are programs in C and Rust that are linked with the library for this machine.
CC = gcc
CFLAGS = -std=c11 -O2 -Wall -Wextra
COUNT = 5000
SEED = 1
CAMERA = crates/strips/data/camera.tif

readme:
	@tools/need gcc
	@archive=$$(tools/archive) && tests/c/readme.sh README.md $(CAMERA) -Iinclude "$$archive"

face:
	@tools/need gcc g++
	@archive=$$(tools/archive) && tests/c/face.sh "$$archive"

# objdump comes with gcc.
loops:
	@tools/need gcc python3
	@archive=$$(tools/archive) && python3 tests/loops.py "$$archive"

# $(call build,PROGRAM,SOURCES)
build = archive=$$(tools/archive) && $(CC) $(CFLAGS) -o target/$(1) $(addprefix tests/c/,$(2)) tests/c/pictures.c "$$archive" -ltiff $(LDFLAGS)

compare:
	@tools/need gcc libtiff-dev
	@$(call build,compare,compare.c)
	target/compare $(COUNT) $(SEED)

# Compare's calls go by way of tests/c/faults.c.
faults: LDFLAGS = -Wl,--wrap=chelmesut_inspect,--wrap=chelmesut_decode,--wrap=chelmesut_read_patchy \
	-Wl,--wrap=chelmesut_receive_start,--wrap=chelmesut_receive_block,--wrap=chelmesut_replay
faults:
	@tools/need gcc libtiff-dev
	@$(call build,faults,compare.c faults.c)
	@tests/c/faults.sh target/faults

# BEFORE= names an archive of another build, whose functions are renamed so that both can be linked.
BEFORE =
bench: CFLAGS += $(if $(BEFORE),-DBEFORE)
bench: LDFLAGS = $(if $(BEFORE),target/before.a)
bench:
	@tools/need gcc libtiff-dev
	@mkdir -p target
	@[ -z '$(BEFORE)' ] || nm -g --defined-only '$(BEFORE)' | sed -n 's/.* T chelmesut_/chelmesut_/p' | sed 's/^chelmesut_\(.*\)/& before_\1/' >target/before.syms
	@[ -z '$(BEFORE)' ] || objcopy --redefine-syms=target/before.syms '$(BEFORE)' target/before.a
	@$(call build,bench,bench.c)
	@target/bench $(CAMERA) "$$(uname -m), $$(lscpu | sed -n 's/^Model name: *//p' | head -n 1)" "$$(rt version)"

# All symbols are bound before it starts, so that the loader's work is on no stack that is measured.
worst: LDFLAGS = -Wl,-z,now
worst:
	@tools/need gcc libtiff-dev valgrind
	@$(call build,worst,worst.c)
	@valgrind -q --tool=callgrind --collect-atstart=no --callgrind-out-file=target/worst.dump target/worst count target/worst.dump target/worst.counts
	@target/worst table target/worst.counts

# Nothing is fetched: the binding has no dependency.
rust: export CARGO_TARGET_DIR = $(CURDIR)/target/rust
rust:
	@command -v cargo >/dev/null || { echo 'make rust needs cargo; it fetches nothing'; exit 2; }
	@tools/archive
	cd bindings/rust && cargo build --offline --locked
	cd bindings/rust && cargo test --offline --locked
	cd bindings/rust && RUSTDOCFLAGS='-D warnings' cargo doc --offline --locked --no-deps
	cd bindings/rust && cargo run --offline --locked --example strips -- ../../$(CAMERA)
