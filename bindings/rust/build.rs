//! Links the archive of the exports, which `rt lib` makes in `crates/exports`.

use std::env;
use std::path::Path;

/// Names the folder of the archive, where it is not the repository's own.
const VARIABLE: &str = "SUSPECTS_ARCHIVE_DIR";

fn main() {
    println!("cargo::rerun-if-env-changed={VARIABLE}");
    let here = env::var_os("CARGO_MANIFEST_DIR").expect("cargo names the folder of the crate");
    let here = Path::new(&here);
    let folder = match env::var_os(VARIABLE) {
        Some(folder) => here.join(folder),
        None => here.ancestors().nth(2).unwrap_or(here).join("crates/exports/out"),
    };
    let archive = folder.join("libexports.a");
    // A file that is not there counts as changed, so a build that failed for it looks again.
    println!("cargo::rerun-if-changed={}", archive.display());
    if archive.is_file() {
        println!("cargo::rustc-link-search=native={}", folder.display());
        println!("cargo::rustc-link-lib=static=exports");
    } else {
        println!(
            "cargo::error=no archive of the exports at {}: first run `rt lib` in the \
             repository's folder crates/exports, or name the folder of the archive in {VARIABLE}",
            archive.display()
        );
    }
}
