//! Links libchukkanalli.a from the folder given as ARCHIVE, by default target/staticlib; a relative path starts at the
//! repository's root.

use std::env;
use std::path::Path;

fn main() {
    println!("cargo::rerun-if-env-changed=ARCHIVE");
    let root = Path::new(env!("CARGO_MANIFEST_DIR")).join("../..");
    let given = env::var("ARCHIVE").ok().filter(|folder| !folder.is_empty());
    let folder = root.join(given.unwrap_or_else(|| "target/staticlib".to_string()));
    let archive = folder.join("libchukkanalli.a");
    println!("cargo::rerun-if-changed={}", archive.display());
    if !archive.is_file() {
        println!("cargo::error={}: there is no such archive", archive.display());
        println!(
            "cargo::error=`make archive` at the repository's root proves the calls and writes it to target/staticlib"
        );
        println!("cargo::error=ARCHIVE=FOLDER names another folder that holds it");
        return;
    }
    println!("cargo::rustc-link-search=native={}", folder.display());
    println!("cargo::rustc-link-lib=static=chukkanalli");
}
