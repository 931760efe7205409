//! Links the archive of the proved library, and the toolchain's archive from its heap to `malloc` and `free`.
//!
//! They are taken from where `rt lib` leaves the one and from beside the page that `rt doc` prints. Two variables name others:
//!
//! - `RAFT_FFI_ARCHIVE`: an archive of the library.
//! - `RATTLE_HEAP_ARCHIVE`: the toolchain's `liblibc_c.a`. It isn't read with the feature `global-allocator`.
//!
//! Where one isn't there that a variable names, that is an error. Where another one isn't there, a warning says how to get it.
//! What links nothing (`cargo check`, `clippy`, `doc`) goes on then, on other machines than those of the library too.

use std::env;
use std::path::{Path, PathBuf};
use std::process::Command;

/// The path at which `rt lib` leaves the archive of the library.
const LIBRARY: &str = concat!(
    env!("CARGO_MANIFEST_DIR"),
    "/../crates/raft_ffi/out/libraft_ffi.a"
);

/// The target that the library is compiled for: the variables in which cargo names its parts, with their values.
const TARGET: [(&str, &str); 3] = [
    ("CARGO_CFG_TARGET_OS", "linux"),
    ("CARGO_CFG_TARGET_ARCH", "x86_64"),
    ("CARGO_CFG_TARGET_ENV", "gnu"),
];

/// Tells cargo to link the library and, without the feature `global-allocator`, the toolchain's heap. For another target
/// nothing is linked. A warning says what is missing.
fn main() {
    let is_ours = |(variable, value)| env::var(variable).is_ok_and(|of_target| of_target == value);
    if !TARGET.into_iter().all(is_ours) {
        return println!(
            "cargo::warning=the proved library is for x86_64-unknown-linux-gnu alone: \
             for this target the crate can be checked and documented, and not linked"
        );
    }
    link_archive("RAFT_FFI_ARCHIVE", || {
        let library = PathBuf::from(LIBRARY);
        if !library.is_file() {
            println!(
                "cargo::warning=the proved library isn't made yet: run `make rust` (about 40 minutes), \
                 or, to try things without a proof, `make rust-unproved` (a minute), and set `RAFT_FFI_ARCHIVE` to what it names"
            );
        }
        library
    });
    if env::var_os("CARGO_FEATURE_GLOBAL_ALLOCATOR").is_none() {
        link_archive("RATTLE_HEAP_ARCHIVE", || {
            find_toolchain_heap().unwrap_or_else(|| {
                println!(
                    "cargo::warning=the toolchain's heap isn't found: put `rt` on the PATH, \
                     or take the feature `global-allocator`"
                );
                PathBuf::from("liblibc_c.a")
            })
        });
    }
}

/// Returns the path of the toolchain's heap, `liblibc_c.a`; `None` where there is no `rt`, or no such file beside its page.
fn find_toolchain_heap() -> Option<PathBuf> {
    println!("cargo::rerun-if-env-changed=PATH");
    let page = Command::new("rt").arg("doc").output().ok()?;
    let page = String::from_utf8(page.stdout).ok()?;
    let archive = Path::new(page.trim()).parent()?.join("c/liblibc_c.a");
    archive.is_file().then_some(archive)
}

/// Tells cargo to link the archive that a variable names, or, where the variable isn't set, the one that `otherwise` returns. An
/// archive that the variable names and that isn't there is an error.
fn link_archive(variable: &str, otherwise: impl FnOnce() -> PathBuf) {
    println!("cargo::rerun-if-env-changed={variable}");
    let archive = match env::var_os(variable).map(PathBuf::from) {
        Some(named) => match named.canonicalize() {
            Ok(archive) => archive,
            Err(e) => return println!("cargo::error={variable}: {}: {e}", named.display()),
        },
        None => otherwise(),
    };
    println!("cargo::rerun-if-changed={}", archive.display());
    let name = archive
        .file_name()
        .and_then(|name| name.to_str()?.strip_prefix("lib")?.strip_suffix(".a"));
    let Some((name, folder)) = name.zip(archive.parent()) else {
        return println!(
            "cargo::error={variable}: {} is no archive",
            archive.display()
        );
    };
    if folder.is_dir() {
        println!("cargo::rustc-link-search=native={}", folder.display());
    }
    println!("cargo::rustc-link-lib=static={name}");
}
