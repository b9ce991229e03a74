//! Finds libnuzolged.a: in the folder that NUZOLGED_LIB_DIR names, else in `native`, as it is
//! packed, else where `make` builds it next to this crate, else in the lib folder of the place that
//! this crate was installed in, else where pkg-config says that it is. For docs.rs, which links
//! nothing, it is not looked for.

use std::env;
use std::path::{Path, PathBuf};
use std::process::Command;

const LIBRARY: &str = "libnuzolged.a";

fn places() -> Vec<PathBuf> {
    let this = Path::new(env!("CARGO_MANIFEST_DIR"));
    if let Some(named) = env::var_os("NUZOLGED_LIB_DIR") {
        return vec![named.into()];
    }
    ["native", "../../out", "../../../../lib"]
        .map(|place| this.join(place))
        .into_iter()
        .chain(place_of_system())
        .collect()
}

/// Returns the folder that pkg-config names for the library, if it is there and knows of it.
fn place_of_system() -> Option<PathBuf> {
    let asked = Command::new("pkg-config")
        .args(["--variable=libdir", "nuzolged"])
        .output()
        .ok()?;
    let told = String::from_utf8(asked.stdout).ok()?;
    (asked.status.success() && !told.trim().is_empty()).then(|| told.trim().into())
}

/// The first of them that has the library.
fn found() -> PathBuf {
    let has_it = |place: &PathBuf| place.join(LIBRARY).is_file();
    places().into_iter().find(has_it).unwrap_or_else(|| {
        panic!(
            "there is no {LIBRARY} in {:?}: run make, or set NUZOLGED_LIB_DIR",
            places()
        )
    })
}

fn main() {
    println!("cargo:rerun-if-env-changed=NUZOLGED_LIB_DIR");
    if env::var_os("DOCS_RS").is_some() {
        return;
    }
    let found = found();
    println!("cargo:rerun-if-changed={}", found.join(LIBRARY).display());
    println!("cargo:rustc-link-search=native={}", found.display());
    println!("cargo:rustc-link-lib=static=nuzolged");
}
