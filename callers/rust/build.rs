//! Links the proved archive: the libexport.a that `rt lib` writes in
//! crates/export/out, or a copy of it that is called liblavroudem.a.

use std::env;
use std::fs;
use std::hash::{DefaultHasher, Hasher};
use std::path::{Path, PathBuf};

fn main() {
    println!("cargo:rerun-if-env-changed=LAVROUDEM_ARCHIVE_DIR");
    let folder = archive_folder();
    // The folder, since a file that is not there would count as changed each time.
    println!("cargo:rerun-if-changed={}", folder.display());
    let name = match found(&folder) {
        Some(bytes) => own_copy(&bytes),
        None => {
            let folder = folder.display();
            println!("cargo:warning={folder} has no archive: run `rt lib` in crates/export first");
            // No file has this name, so that no other folder helps out.
            "lavroudem-archive-that-is-missing".to_string()
        }
    };
    println!("cargo:rustc-link-lib=static={name}");
}

const NAMES: [&str; 2] = ["lavroudem", "export"];

fn archive(folder: &Path, name: &str) -> PathBuf {
    folder.join(format!("lib{name}.a"))
}

/// The folder in LAVROUDEM_ARCHIVE_DIR, or the one that `rt` writes to.
fn archive_folder() -> PathBuf {
    match env::var_os("LAVROUDEM_ARCHIVE_DIR") {
        Some(folder) => PathBuf::from(folder),
        None => PathBuf::from(env!("CARGO_MANIFEST_DIR")).join("../../crates/export/out"),
    }
}

/// The archive that is there. Two that differ are an error, since one of them
/// is old.
fn found(folder: &Path) -> Option<Vec<u8>> {
    let [named, written] = NAMES.map(|name| fs::read(archive(folder, name)).ok());
    match (named, written) {
        (Some(named), Some(written)) if named != written => {
            panic!("{} has two archives that differ", folder.display());
        }
        (named, written) => named.or(written),
    }
}

/// Whoever builds may have other folders searched before ours. So what is
/// linked is a copy, under a name that goes with what is in it and that no
/// other folder has.
fn own_copy(bytes: &[u8]) -> String {
    let mut sum = DefaultHasher::new();
    sum.write(bytes);
    let name = format!("lavroudem-{:016x}", sum.finish());
    let folder = PathBuf::from(env::var_os("OUT_DIR").expect("cargo names it"));
    let copy = archive(&folder, &name);
    if let Err(fault) = fs::write(&copy, bytes) {
        panic!("{}: {fault}", copy.display());
    }
    println!("cargo:rustc-link-search=native={}", folder.display());
    name
}
