//! Tests that each program of examples/ runs, and prints what it should. `ten_lines` has a test of its own, which kills it.

mod common;

use common::{TempFolder, readme_lines, repository_folder};
use std::collections::BTreeSet;
use std::path::{Path, PathBuf};
use std::process::Command;
use std::{env, fs};

/// The programs that are tested here and in `killed.rs`.
const PROGRAMS: [&str; 7] = [
    "look",
    "phases",
    "raft_storage",
    "recover",
    "speed",
    "ten_lines",
    "write",
];

/// Returns the path of a program, which `cargo test` builds beside the tests. Panics where it isn't there.
fn program_path(name: &str) -> PathBuf {
    let tests = env::current_exe().unwrap();
    let path = tests
        .ancestors()
        .nth(2)
        .unwrap()
        .join("examples")
        .join(name);
    assert!(
        path.is_file(),
        "`cargo build --examples` makes {}",
        path.display()
    );
    path
}

/// Runs a program with these arguments, and returns the lines that it prints. Panics where it fails.
fn run_program(name: &str, words: &[&Path]) -> Vec<String> {
    let output = Command::new(program_path(name))
        .args(words)
        .output()
        .unwrap();
    let error = String::from_utf8_lossy(&output.stderr);
    assert!(output.status.success(), "{name}: {error}");
    let said = String::from_utf8(output.stdout).unwrap();
    said.lines().map(str::to_owned).collect()
}

#[test]
fn the_list_of_programs_has_all_examples() {
    let files = fs::read_dir(repository_folder().join("rust/examples")).unwrap();
    let files = files.map(|file| file.unwrap().path());
    let programs = files.filter(|path| path.is_file());
    let names = programs.map(|path| path.file_stem().unwrap().to_owned());
    let names: BTreeSet<_> = names.map(|name| name.into_string().unwrap()).collect();
    assert!(names.iter().eq(&PROGRAMS), "{names:?}");
}

#[test]
fn the_log_store_appends_an_entry_each_time() {
    let room = TempFolder::new();
    for index in 1..=3 {
        assert_eq!(
            run_program("raft_storage", &[room.path()]),
            [format!("entry {index}")]
        );
    }
    let look = run_program("look", &[room.path()]);
    assert!(
        look.contains(&"region 1: entries 1 to 3, 0 keys".to_owned()),
        "{look:?}"
    );
    assert!(look[0].starts_with("append queue: 1 files of "), "{look:?}");

    // a torn tail is left out, and stays where it is
    let torn = room.path().join("0000000000000001.raftlog");
    let mut bytes = fs::read(&torn).unwrap();
    bytes.extend(b"torn");
    fs::write(&torn, &bytes).unwrap();
    let look = run_program("look", &[room.path()]);
    assert!(
        look[0].starts_with("left out: append file 1, offset "),
        "{look:?}"
    );
    assert_eq!(fs::read(&torn).unwrap(), bytes);
    assert_eq!(run_program("raft_storage", &[room.path()]), ["entry 4"]);
}

#[test]
fn the_recover_program_prints_the_lines_of_the_readme() {
    let expected: Vec<_> = readme_lines().lines().map(str::to_owned).collect();
    assert_eq!(
        run_program("recover", &[&repository_folder().join("demo")]),
        expected
    );
}

#[test]
fn the_write_program_recovers_all_but_the_batch_that_it_cuts_short() {
    let room = TempFolder::new();
    let path = room.path().join("file");
    let said = run_program("write", &[&path]);
    let (torn, recovered) = said.split_first().unwrap();
    let len = fs::metadata(path).unwrap().len();
    assert!(torn.contains(&format!(" of {} bytes: ", len - 1)), "{torn}");
    // a batch of ten entries and a key was cut short: the key has its older value
    assert_eq!(recovered.last().unwrap(), "live 394 0");
    let of_region = |region: u64| format!("{region} entries 1..101 keys 1 append 1 rewrite -");
    let whole = (1..=4).filter(|region| recovered.contains(&of_region(*region)));
    assert_eq!((whole.count(), recovered.len()), (3, 6));
}

#[test]
fn the_speed_program_prints_its_ten_lines() {
    let room = TempFolder::new();
    let folder = room.path().join("new");
    let said = run_program("speed", &[&folder, Path::new("1"), Path::new("1")]);
    let written = said
        .iter()
        .filter(|line| line.contains(" batches a second"));
    let appended = said.iter().filter(|line| line.ends_with(" times a second"));
    let read = said.iter().filter(|line| line.contains("ms, opened in "));
    let got = said
        .iter()
        .filter(|line| line.starts_with("an entry of ") && line.ends_with(" ns"));
    assert_eq!((written.count(), appended.count()), (4, 1));
    assert_eq!((read.count(), got.count()), (3, 1));
    let purged = said.last().unwrap();
    assert!(purged.ends_with(" ms") && purged.contains(" writes beside a purge: "));
    assert_eq!(said.len(), 10);
}

#[test]
fn the_phases_program_prints_a_line_for_each_phase() {
    let said = run_program("phases", &[Path::new("1")]);
    let phases: Vec<Vec<_>> = said.iter().map(|line| line.split('\t').collect()).collect();
    let numbers = phases.iter().map(|phase| [phase[1], phase[3]]);
    assert!(
        numbers
            .flatten()
            .all(|number| number.parse::<u64>().is_ok())
    );
    let of_entries = |phase: &&Vec<&str>| phase[1..3] == ["1600", "entry"];
    assert_eq!(phases.iter().filter(of_entries).count(), 9);
    assert_eq!(phases.len(), 12, "{said:?}");
}

#[test]
fn a_program_without_its_arguments_says_which_it_takes() {
    for name in ["look", "raft_storage", "recover", "speed", "ten_lines"] {
        let output = Command::new(program_path(name)).output().unwrap();
        let error = String::from_utf8_lossy(&output.stderr);
        assert!(
            !output.status.success() && error.contains(&format!("{name} <folder>")),
            "{name}: {error}"
        );
    }
}
