//! Tests what the build script prints where something is missing: one warning, or two where two archives are missing, with which
//! `cargo check` goes on; and an error where the archive is missing that the variable names.

mod common;

use common::{TempFolder, repository_folder};
use std::env;
use std::fs;
use std::path::PathBuf;
use std::process::Command;

/// The build script, compiled for a package in a folder of its own, so that no archive is beside it.
struct BuildScript {
    room: TempFolder,
    program: PathBuf,
}

impl BuildScript {
    /// Compiles the script in a new folder. Panics where it doesn't compile.
    fn new() -> BuildScript {
        let room = TempFolder::new();
        let program = room.path().join("script");
        let rustc = env::var_os("RUSTC").unwrap_or_else(|| "rustc".into());
        let compiled = Command::new(rustc)
            .args(["--edition", "2024", "-o"])
            .arg(&program)
            .arg(repository_folder().join("rust/build.rs"))
            .env("CARGO_MANIFEST_DIR", room.path().join("rust"))
            .status()
            .unwrap();
        assert!(compiled.success());
        BuildScript { room, program }
    }

    /// Runs the script for a target, given as its system, processor and C library, with these environment variables. Returns the
    /// lines that it prints, without those that tell cargo when to run it again. Panics where it fails.
    fn run_for_target(&self, target: [&str; 3], variables: &[(&str, &str)]) -> Vec<String> {
        let [system, processor, library] = target;
        let output = Command::new(&self.program)
            .env_clear()
            .env("PATH", self.room.path()) // no `rt` is there
            .env("CARGO_CFG_TARGET_OS", system)
            .env("CARGO_CFG_TARGET_ARCH", processor)
            .env("CARGO_CFG_TARGET_ENV", library)
            .envs(variables.iter().copied())
            .output()
            .unwrap();
        assert!(output.status.success());
        let said = String::from_utf8(output.stdout).unwrap();
        let lines = said.lines().filter(|line| !line.contains("rerun-if"));
        lines.map(str::to_owned).collect()
    }
}

/// The target for which the library is made.
const OURS: [&str; 3] = ["linux", "x86_64", "gnu"];

/// The variable that cargo sets for the feature `global-allocator`, with which nothing of the toolchain is needed.
const GLOBAL: (&str, &str) = ("CARGO_FEATURE_GLOBAL_ALLOCATOR", "1");

#[test]
fn on_other_machines_one_line_says_what_is_missing_and_nothing_is_linked() {
    let script = BuildScript::new();
    for target in [
        ["windows", "x86_64", "msvc"],
        ["macos", "aarch64", ""],
        ["linux", "aarch64", "gnu"],
        ["linux", "x86_64", "musl"],
    ] {
        let said = script.run_for_target(target, &[]);
        assert_eq!(said.len(), 1, "{said:?}");
        let line = &said[0];
        assert!(
            line.starts_with("cargo::warning=") && line.contains("x86_64-unknown-linux-gnu alone")
        );
    }
}

#[test]
fn without_the_library_one_line_says_how_to_make_it() {
    let said = BuildScript::new().run_for_target(OURS, &[GLOBAL]);
    let warnings = said
        .iter()
        .filter(|line| line.starts_with("cargo::warning="));
    let warnings: Vec<_> = warnings.collect();
    assert_eq!(warnings.len(), 1, "{said:?}");
    assert!(
        warnings[0].contains("run `make rust`") && warnings[0].contains("`make rust-unproved`")
    );
    assert!(!said.iter().any(|line| line.starts_with("cargo::error=")));
}

#[test]
fn without_the_heap_of_the_toolchain_one_more_line_names_the_feature_that_needs_none() {
    let said = BuildScript::new().run_for_target(OURS, &[]);
    let warnings = said
        .iter()
        .filter(|line| line.starts_with("cargo::warning="));
    assert_eq!(warnings.count(), 2, "{said:?}");
    assert!(
        said.iter()
            .any(|line| line.contains("the feature `global-allocator`"))
    );
}

#[test]
fn an_archive_that_the_variable_names_is_linked_and_is_an_error_where_it_is_missing() {
    let script = BuildScript::new();
    let archive = script.room.path().join("libmine.a");
    let named = [GLOBAL, ("RAFT_FFI_ARCHIVE", archive.to_str().unwrap())];
    let said = script.run_for_target(OURS, &named);
    assert_eq!(said.len(), 1, "{said:?}");
    assert!(
        said[0].starts_with("cargo::error=RAFT_FFI_ARCHIVE: "),
        "{said:?}"
    );

    fs::write(&archive, "").unwrap();
    let said = script.run_for_target(OURS, &named);
    let folder = script.room.path().canonicalize().unwrap();
    let expected = [
        format!("cargo::rustc-link-search=native={}", folder.display()),
        "cargo::rustc-link-lib=static=mine".to_owned(),
    ];
    assert_eq!(said, expected);
}
