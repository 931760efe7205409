//! Tests that may run beside one another in one process, in one program: a program of its own for each takes a second to
//! compile and link. Tests that replace the heap, start processes, or wait for threads have their own.

#[path = "../common/mod.rs"]
mod common;

mod batch_items;
mod batches;
mod damaged_files;
mod engine;
mod engine_cuts;
mod engine_damage;
mod engine_moves;
mod engine_pages;
mod engine_scan;
mod error_kinds;
mod kept_blocks;
mod lent_reads;
mod memory_files;
mod messages;
mod no_room;
mod opening_pieces;
mod parts;
mod public_calls;
mod purges;
mod recovery;
mod slot_batches;
mod slots;
mod tables;
mod types;
mod unsafe_clauses;
