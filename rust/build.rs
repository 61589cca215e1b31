//! Links the archive of the proved library, and says of which commit the crate is.

use std::env;
use std::path::{Path, PathBuf};
use std::process::Command;

/// The folder of the archive, where it is neither the repository's nor the installed one.
const VARIABLE: &str = "YOHRUNDEL_ARCHIVE_DIR";

const ARCHIVE: &str = "libyohrundel.a";

/// In the repository, and where `make install` puts the archive beside the crate.
const FOLDERS: [&str; 2] = ["../target", "../../../lib"];

fn folder() -> PathBuf {
    if let Some(folder) = env::var_os(VARIABLE) {
        return PathBuf::from(folder);
    }
    let folders = FOLDERS.map(|folder| Path::new(env!("CARGO_MANIFEST_DIR")).join(folder));
    let found = folders.iter().find(|folder| folder.join(ARCHIVE).is_file());
    found.unwrap_or(&folders[0]).clone()
}

/// The commit, where the crate is in a repository; an archive of files has none.
fn commit() -> Option<String> {
    let asked = ["rev-parse", "--short=10", "HEAD"];
    let output = Command::new("git").args(asked).output().ok()?;
    let commit = String::from_utf8(output.stdout).ok()?;
    output.status.success().then(|| commit.trim().to_string())
}

fn name_commit() {
    // A file that each commit changes; a file that is missing would run this script each time.
    if Path::new("../.git/logs/HEAD").is_file() {
        println!("cargo::rerun-if-changed=../.git/logs/HEAD");
    }
    let commit = commit().unwrap_or_default();
    println!("cargo::rustc-env=YOHRUNDEL_COMMIT={commit}");
}

fn main() {
    println!("cargo::rerun-if-env-changed={VARIABLE}");
    name_commit();
    let file = folder().join(ARCHIVE);
    println!("cargo::rerun-if-changed={}", file.display());
    if !file.is_file() {
        println!(
            "cargo::error={} is missing: run `make archive`",
            file.display()
        );
        return;
    }
    // The linker runs in another folder than this script.
    let folder = folder().canonicalize().expect("the folder of the archive");
    println!("cargo::rustc-link-search=native={}", folder.display());
    println!("cargo::rustc-link-lib=static=yohrundel");
}
