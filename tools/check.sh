#!/usr/bin/env bash
# The full check. Its steps are, in this order:
#
# - docs/BELIEVE.md, docs/BELIEVE_ENGINE.md and docs/CALLS.md are what the definitions and the sources say, what pages name is there, the
#   declarations of the Rust crate are those of the exports, and each wrong body can be applied;
# - `rt ci`: proofs, edits that must fail, tests and programs;
# - arguments that aren't UTF-8, and `recover --plain` over rows and damaged inputs;
# - the frames of `raftlog` on the stack, and runs with little stack;
# - crashes in more histories;
# - writes of `raft_example` that fail half way, also where the engine goes on (if there is `strace`), what `raftlog` says of damaged folders,
#   and what an engine does with them;
# - if there is a C compiler, the rows of `raft_refusals` with memory and starts of threads refused;
# - if there is cargo, the tests of rust/, and whether programs in Rust and in Rattle open each other's folders.
#
# It prints the name of a step when it begins and its times when it ends, and all of them at the end. It ends at the first step that fails.
# The last line is that of `rt ci`, 'N passed, M failed'.
set -euo pipefail
cd "$(dirname "$0")/.."
program=crates/raftlog/out/raftlog
crashes=$PWD/crates/raft_crashes/out/raft_crashes
group_crashes=$PWD/crates/raft_group_crashes/out/raft_group_crashes
frame_limit=16384
room=$(mktemp -d)
trap 'rm -rf "$room"' EXIT

# Prints that a step begins, and how long the step before it took: by the clock, and in processor time.
heading=
begun=$SECONDS
used=0
step() {
  times > "$room/times"
  local now
  now=$(awk -F '[ms ]+' 'NR == 2 { printf "%d", 60 * $1 + $2 + 60 * $3 + $4 }' "$room/times")
  [ -z "$heading" ] || echo "-- $heading: $((SECONDS - begun)) s, $((now - used)) s of processor time" | tee -a "$room/steps"
  heading=$1
  begun=$SECONDS
  used=$now
  [ -z "$heading" ] || echo "-- $heading"
}

step "pages, declarations and wrong bodies"
tools/believe.py --check
tools/calls.py --check
tools/pages.py
tools/ffi.py
tools/wrong_bodies.py --applies
step "proofs, must-fail edits, tests and programs"
# (`rt ci` puts back the libraries that it finds in out/, which may be of other sources; tools/archive.py is to find its own)
rm -rf crates/*/out/rlib
"${RT:-rt}" ci | tee "$room/proved"

step "words that aren't UTF-8, and the plain program"
status=0
"$program" recover append 1 1 $'1=\xff' > "$room/out" 2> "$room/err" || status=$?
if [ "$status" != 2 ] || [ -s "$room/out" ] || ! grep -q '^usage: raftlog ' "$room/err"; then
  echo "a word that isn't UTF-8: status $status, and not the usage alone"
  exit 1
fi
files=(append 2 4 1=demo/1.log 2=demo/2.log 3=demo/3.log 4=demo/4.log)
"$program" recover "${files[@]}" > "$room/wanted"
"$program" recover --plain "${files[@]}" > "$room/out"
if ! [ -s "$room/out" ] || ! cmp -s "$room/out" "$room/wanted"; then
  echo "recover --plain: other lines than those of recover"
  exit 1
fi
tools/beside_plain.py
tools/hostile.py --inputs 1000 --against tools/beside_plain.py
step "frames and little stack"
# (reading a folder takes a buffer for its names, and the parser of the words of these commands is a large value)
tools/frames.py "$program" --show 3 --limit "$frame_limit" --without raftlog::tools --without raftlog::command_line --without raftlog::cut --without raft_inspect::cut --without raft_folder:: --without clap::
tools/stack.py "$program"
step "crashes"
"$crashes" 1 500 2>&1 | tee "$room/crashes"
(cd "$room" && "$group_crashes" 1 25 1) 2>&1 | tee -a "$room/crashes"
if [ "$(grep -c '^[1-9].* recoveries$' "$room/crashes")" != 2 ]; then
  echo "crashes: none was tried"
  exit 1
fi
step "failed writes, and a damaged folder"
tools/short_writes.py
tools/full_once.py
tools/folder_damage.py --opener crates/raft_example/out/raft_example
tools/hostile_folders.py --inputs 200
step "refused memory"
if command -v cc > "$room/compiler"; then
  tools/refused_memory.py --rows-alone --every 5
fi
step "the archive of raft_ffi, and the tests of rust/"
if cargo --version > "$room/cargo" 2>&1; then
  tools/archive.py > "$room/archive" 2>&1 || { cat "$room/archive"; exit 1; }
  CARGO_TARGET_DIR="$room/target" make --silent rust-tests
  tools/both_folders.py "$program" crates/raft_example/out/raft_example "$room/target/debug/examples"
fi
step ""
echo "-- all steps:"
cat "$room/steps"
tail -n 1 "$room/proved"
