# The commands of this repository. `rt` is the toolchain's command.
SHELL := /bin/bash
RT ?= rt
export RT
.PHONY: believe believe-check bench bench-calls bench-engine calls compare crashes cuttings demo demo-recover edits example hostile hostile-folders pages raftlog refused-memory rust rust-crashes rust-tests rust-unproved stack test tools wrong-bodies

# Builds `raftlog` with checks at run time and keeps it, and says where it lies. Nothing is proved.
tools:
	@tools/unproved_program.py raftlog
	@echo "it isn't proved: \`make raftlog\` proves it"

# Runs `raftlog` on an item batch, which says that the records of region 1 go. Nothing is proved.
demo:
	@echo "raftlog, compiled with checks at run time and run without a proof (\`make raftlog\` proves it):"
	@tools/unproved_program.py raftlog > /dev/null
	@echo "\$$ printf '\x01\x01\x02\x01\x5a\x80\x0b\xdd' | raftlog batch append 12 1"
	@crates/raftlog/out/raftlog_unproved batch append 12 1 < crates/raftlog/stdin

# Recovers the tables that the files of demo/ give, by at most four workers. Nothing is proved.
demo-recover:
	@echo "raftlog, compiled with checks at run time and run without a proof (\`make raftlog\` proves it):"
	@tools/unproved_program.py raftlog > /dev/null
	@echo "\$$ raftlog recover append 2 4 1=demo/1.log 2=demo/2.log 3=demo/3.log 4=demo/4.log"
	@crates/raftlog/out/raftlog_unproved recover append 2 4 $(foreach n,1 2 3 4,"$(n)=demo/$(n).log")

# Runs the example. Nothing is proved.
example:
	@echo "raft_example, compiled with checks at run time, which takes a minute, and run without a proof:"
	@tools/unproved_program.py raft_example > /dev/null
	@cd crates/raft_example/out && ./raft_example_unproved

# Proves `raftlog` and the crates below it, builds it, and says where it lies.
raftlog:
	@set -o pipefail; cd crates/raftlog && $(RT) run -- batch append 12 1 < stdin 2>&1 > /dev/null | grep --line-buffered -v '^statements '
	@echo "raftlog is proved and built: crates/raftlog/out/raftlog"

# Proves and builds the archive of `raft_ffi`, and tests it.
rust:
	@mkdir -p crates/raft_ffi/out
	@cd crates/raft_ffi && $(RT) lib > out/lib.log 2>&1 || { cat out/lib.log; exit 1; }
	@$(MAKE) --silent rust-tests

# Looks at which functions the archive of `raft_ffi` calls, and runs the tests of rust/ over it, with the heap of the toolchain and with
# the program's own. Where cargo has them, `fmt` and `clippy` look at the sources first. The programs of tests have no names for
# debuggers, which take half of the time to compile and link them.
rust-tests: export RAFT_FFI_ARCHIVE = $(CURDIR)/crates/raft_ffi/out/libraft_ffi.a
rust-tests: export RATTLE_HEAP_ARCHIVE = $(dir $(shell $(RT) doc))c/liblibc_c.a
rust-tests: export CARGO_TARGET_DIR ?= $(CURDIR)/crates/raft_ffi/out/target
rust-tests: export CARGO_PROFILE_DEV_DEBUG ?= 0
rust-tests: CLIPPY = cargo clippy --quiet --offline --all-targets --manifest-path rust/Cargo.toml
rust-tests:
	@tools/ffi.py $(RAFT_FFI_ARCHIVE)
	@! cargo fmt --version > /dev/null 2>&1 || cargo fmt --check --manifest-path rust/Cargo.toml
	@! cargo clippy --version > /dev/null 2>&1 || $(CLIPPY) -- -D warnings
	@! cargo clippy --version > /dev/null 2>&1 || $(CLIPPY) --features global-allocator -- -D warnings
	RUSTDOCFLAGS='-D warnings' cargo doc --quiet --offline --no-deps --manifest-path rust/Cargo.toml
	cargo test --quiet --offline --manifest-path rust/Cargo.toml
	cargo test --quiet --offline --manifest-path rust/Cargo.toml --features global-allocator

# Runs HISTORIES random histories of the engine of rust/ from a seed on, as `make rust-crashes SEED=7`, and opens what each stop of the
# machine may leave of them, on a disk that writes in order and on one that writes unsynced pages in any order, over the archive
# that `RAFT_FFI_ARCHIVE` names or the proved one.
rust-crashes: export RATTLE_HEAP_ARCHIVE = $(dir $(shell $(RT) doc))c/liblibc_c.a
rust-crashes: export CARGO_TARGET_DIR ?= $(CURDIR)/crates/raft_ffi/out/target
rust-crashes:
	@cd rust && SEED=$(SEED) HISTORIES=$(HISTORIES) cargo test --release --quiet --offline --test engine_crashes --test engine_page_crashes -- --nocapture

# Builds an archive of `raft_ffi` without a proof, to try rust/ with, in a minute, and says how.
rust-unproved:
	@tools/unproved.py
	@echo "to test rust/ over it: cd rust && RAFT_FFI_ARCHIVE=$(CURDIR)/crates/raft_ffi/out/libraft_ffi_unproved.a cargo test"

# As many crates at a time as there are processors, and as memory holds: no check was seen to take more than 3 GB.
LANES = $(shell awk -v n="$$(nproc)" '/^MemAvailable/ { m = int($$2 / 4000000); print m < 1 ? 1 : m < n ? m : n }' /proc/meminfo)

# Proves every crate from nothing, runs the tests and the programs, and tries the wrong bodies of must-fail/. Then runs `raftlog`
# with little stack.
test:
	@RT_JOBS=$(LANES) tools/check.sh

# Runs `raftlog recover` over 2,000 files with little stack, and lists its largest frames. `make raftlog` builds it first;
# `objdump` is needed.
stack:
	@tools/frames.py crates/raftlog/out/raftlog
	@tools/stack.py crates/raftlog/out/raftlog

# Tries the other wrong bodies, over a copy of the repository, and lists those that are not refused.
wrong-bodies:
	@tools/wrong_bodies.py

# Looks whether each wrong body can still be applied. Nothing is proved.
edits:
	@tools/wrong_bodies.py --applies

# Writes docs/BELIEVE.md and docs/BELIEVE_ENGINE.md, the definitions that what is proved of recovery and of the engine rests on.
believe:
	@tools/believe.py

# Fails where one of these two pages isn't what the definitions say.
believe-check:
	@tools/believe.py --check

# Fails where a page links to what isn't there, or names it.
pages:
	@tools/pages.py

# Writes docs/CALLS.md, the page of all calls. The full check fails where it isn't what the sources say.
calls:
	@tools/calls.py

# Times checksums, numbers, batches, tables and those that threads share, and as `make bench LOG='append 2 1 1=a.log ..'`, with
# the words of `raftlog recover`, the recovery of files and the merging of their contexts.
LOG ?=
bench:
	@mkdir -p crates/raft_bench/out
	@cd crates/raft_bench && $(RT) run > out/bench.log 2>&1 || { cat out/bench.log; exit 1; }
	@crates/raft_bench/out/raft_bench crc32 varint batches memtable blocks shared
	@test -z "$(LOG)" || { crates/raft_bench/out/raft_bench recover $(LOG) && crates/raft_bench/out/raft_bench merge recover $(LOG); }

# Counts the instructions of the phases of an engine over files in memory, for numbers of regions and of batches of each, as
# `make bench-engine SHAPES='1 2500 100 10'`, and those of the engine of rust/, where there is cargo; and those of a table's calls, for
# numbers of blocks. Nothing is proved. `valgrind` counts; with `SHAPES=--times` the programs run by themselves, and say nanoseconds.
SHAPES ?=
bench-engine:
	@tools/count_phases.py engine $(SHAPES)
bench-calls:
	@tools/count_phases.py calls $(SHAPES)

# Runs `raftlog recover` over a folder of cases, as `make compare CASES=folder WORKERS=1,2,4,8`, and counts those of which it
# prints something else than they say. `make raftlog` builds it first. With `PLAIN=--plain` the plain program runs them. With
# `PROGRAM=crates/raft_cuttings/out/raft_cuttings` each case, of up to 16 batches, is read at every cutting; `make cuttings` builds that.
WORKERS ?= 1
PROGRAM ?= crates/raftlog/out/raftlog
compare:
	@test -n "$(CASES)" || { echo "make compare CASES=folder: the folder with the cases has to be named"; exit 1; }
	@tools/compare.py $(CASES) $(PROGRAM) $(WORKERS) $(PLAIN)

# Proves `raft_crashes` and `raft_group_crashes`, and goes through random histories of an engine from a seed on, as
# `make crashes SEED=7 HISTORIES=100000`, and through a tenth as many of a store with atomic groups.
HISTORIES ?= 1000
crashes:
	@for name in raft_crashes raft_group_crashes; do mkdir -p crates/$$name/out; done
	@cd crates/raft_crashes && $(RT) run -- 1 0 > out/run.log 2>&1 || { cat out/run.log; exit 1; }
	@cd crates/raft_group_crashes && $(RT) run -- 1 1 0 > out/run.log 2>&1 || { cat out/run.log; exit 1; }
	@crates/raft_crashes/out/raft_crashes $(SEED) $(HISTORIES)
	@room=$$(mktemp -d) && cd "$$room" && \
	  $(CURDIR)/crates/raft_group_crashes/out/raft_group_crashes $(SEED) $$(($(HISTORIES) / 10)) 2; status=$$?; rm -rf "$$room"; exit $$status

# Proves `raft_cuttings` and the crates below it, builds it, and says where it lies.
cuttings:
	@cd crates/raft_cuttings && $(RT) run -- recover rewrite 1 1 1=data/second > /dev/null
	@echo "raft_cuttings is proved and built: crates/raft_cuttings/out/raft_cuttings"

# Refuses each request for memory and each start of a thread in turn: over the rows of `raft_refusals`, and over `raftlog` with
# the files of demo/, INPUTS inputs that are made, and larger files. It needs a C compiler, `cc`.
INPUTS ?= 100
refused-memory: raftlog
	@mkdir -p crates/raft_refusals/out
	@cd crates/raft_refusals && $(RT) run > out/run.log 2>&1 || { cat out/run.log; exit 1; }
	@tools/refused_memory.py --inputs $(INPUTS)

# Runs `raftlog` over N inputs that no engine writes, as `make hostile N=100000 SEED=7`, and counts what it must never do.
# `make raftlog` builds it first.
N ?= 10000
SEED ?= 1
hostile:
	@tools/hostile.py --inputs $(N) --seed $(SEED)

# Runs the commands of `raftlog` that look into folders over N inputs, as `make hostile-folders N=10000 SEED=7`, and counts what they must
# never do. `make raftlog` builds it first; with `PROGRAM=crates/raftlog/out/raftlog_unproved` the one of `make tools` runs.
hostile-folders:
	@tools/hostile_folders.py $(PROGRAM) --inputs $(N) --seed $(SEED)
