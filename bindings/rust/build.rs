//! Links the static library of the C interface: the archive that LAWCHECK_LIBRARY names (as an
//! installed `liblawcheck.a`), or the repository's `target/staticlib/libcapi.a`. With the feature
//! `unlinked` nothing; a build that names a library refuses that feature, so that nothing else
//! stands in the library's place.

use std::env;
use std::path::{Path, PathBuf};
use std::process::exit;

fn main() {
    println!("cargo::rerun-if-env-changed=LAWCHECK_LIBRARY");
    let named = env::var_os("LAWCHECK_LIBRARY");
    if env::var_os("CARGO_FEATURE_UNLINKED").is_some() {
        if named.is_some() {
            eprintln!(
                "error: LAWCHECK_LIBRARY names a library, and the feature unlinked links none."
            );
            eprintln!("Build without the feature (mock turns it on), or without the variable.");
            exit(1);
        }
        return;
    }
    let archive = match named {
        Some(path) => PathBuf::from(path),
        None => {
            let package =
                env::var_os("CARGO_MANIFEST_DIR").expect("cargo names the package's folder");
            Path::new(&package).join("../../target/staticlib/libcapi.a")
        }
    };
    println!("cargo::rerun-if-changed={}", archive.display());
    let Ok(archive) = archive.canonicalize() else {
        eprintln!("error: the static library {} is missing.", archive.display());
        eprintln!("Make it first (rt lib in crates/capi, or tests/library), or name one in LAWCHECK_LIBRARY.");
        exit(1);
    };
    let folder = archive.parent().expect("a file stands in a folder");
    let name = archive
        .file_stem()
        .and_then(|stem| stem.to_str())
        .and_then(|stem| stem.strip_prefix("lib"));
    let Some(name) = name else {
        eprintln!("error: {} is not named like libNAME.a.", archive.display());
        exit(1);
    };
    println!("cargo::rustc-link-search=native={}", folder.display());
    println!("cargo::rustc-link-lib=static={name}");
}
