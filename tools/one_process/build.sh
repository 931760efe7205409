#!/usr/bin/env bash
# Builds a program that recovers log files by `rust/` and by raft-engine's own modules in one process, for comparisons and times.
#
#   tools/one_process/build.sh <harness> <folder to build in>
#
# The harness isn't part of this repository. It is a cargo package `raft-engine` with raft-engine's modules `memtable` and `pipe_log`, and a
# module `peer`, which reads the batches of a file in memory (`read::{Part, new_context, replay_one, replay_as_crate, pool}`) and gives access
# to what a table keeps private (`peer_kvs`, `peer_cleaned`). adapter.rs is put beside `peer::read`. main.rs says how the program is called.
# The environment variable RAFT_FFI_ARCHIVE names the archive, as for the tests of rust/. The last line is the path of the program.
set -euo pipefail
[ $# = 2 ] || { sed -n '4p' "$0" | sed 's/^# */usage: /' >&2; exit 2; }
here=$(cd "$(dirname "$0")" && pwd)
harness=$(cd "$1" && pwd)
mkdir -p "$2/src"
room=$(cd "$2" && pwd)
rm -rf "$room/engine"
mkdir "$room/engine"
cp -r "$harness/src" "$harness/Cargo.toml" "$room/engine/"
[ ! -d "$harness/stubs" ] || cp -r "$harness/stubs" "$room/engine/"
[ ! -d "$harness/.cargo" ] || cp -r "$harness/.cargo" "$room/"
cp "$here/adapter.rs" "$room/engine/src/peer/adapter.rs"
echo 'pub mod adapter;' >> "$room/engine/src/peer/mod.rs"
cp "$here/main.rs" "$room/src/main.rs"
cat > "$room/Cargo.toml" <<TOML
[package]
name = "one_process"
version = "0.1.0"
edition = "2024"

[dependencies]
raft-engine = { path = "engine" }
raft-recover = { path = "$here/../../rust", features = ["global-allocator"] }

[profile.release]
debug-assertions = false
overflow-checks = false
TOML
cd "$room"
cargo build --release --offline --quiet
echo "$room/target/release/one_process"
