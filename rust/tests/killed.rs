//! Kills the program of ten lines while it writes, and tests that it finds what it wrote.

mod common;

use common::{TempFolder, repository_folder};
use raft_recover::{Engine, ErrorKind, Options};
use std::env;
use std::io::{BufRead, BufReader};
use std::path::PathBuf;
use std::process::{Command, Stdio};

/// Returns the path of the program `ten_lines`, which `cargo test` builds beside the tests. Panics where it isn't there.
fn program_path() -> PathBuf {
    let tests = env::current_exe().unwrap();
    let path = tests.ancestors().nth(2).unwrap().join("examples/ten_lines");
    assert!(
        path.is_file(),
        "`cargo build --examples` makes {}",
        path.display()
    );
    path
}

#[test]
fn a_program_that_is_killed_while_it_writes_finds_what_it_wrote() {
    let room = TempFolder::new();
    let mut wrote = 0;
    for round in 1..=5 {
        let mut child = Command::new(program_path())
            .arg(room.path())
            .stdout(Stdio::piped())
            .spawn()
            .unwrap();
        let mut lines = BufReader::new(child.stdout.take().unwrap()).lines();
        let found = lines.next().unwrap().unwrap();
        let found: u64 = found.strip_prefix("found ").unwrap().parse().unwrap();
        assert!(found >= wrote, "round {round}: {found} of {wrote}");
        for _ in 0..100 * round {
            lines.next().unwrap().unwrap();
        }
        let e = Engine::open(room.path(), Options::new()).unwrap_err();
        assert_eq!(e.kind, ErrorKind::TryAgain);
        child.kill().unwrap();
        child.wait().unwrap();
        // what it had still said when it was killed; a line may be cut short
        let last = lines.map_while(Result::ok).filter_map(|line| {
            line.strip_prefix("wrote ")
                .and_then(|index| index.parse::<u64>().ok())
        });
        wrote = last.last().unwrap_or(found + 100 * round);

        let engine = Engine::open(room.path(), Options::new()).unwrap();
        let entries = engine.entries(7, ..).unwrap();
        assert!(entries.len() as u64 >= wrote, "round {round}");
        for (index, entry) in (1..).zip(entries) {
            assert_eq!(entry, format!("entry {index}").into_bytes());
        }
    }
}

#[test]
fn the_readme_shows_the_program() {
    let read = |path| std::fs::read_to_string(repository_folder().join("rust").join(path)).unwrap();
    let program = read("examples/ten_lines.rs");
    let (_, program) = program.split_once("\n\n").unwrap();
    assert!(read("README.md").contains(program));
}
