// Shared by the build scripts: where the Rust that is compared lies, and the `mod` lines that bring it in unchanged.

use std::path::{Path, PathBuf};
use std::{env, fs};

/// The folder given as RUST, by default ../shared/docs/src; a relative path starts at the repository's root.
fn source_folder() -> PathBuf {
    let manifest = env::var("CARGO_MANIFEST_DIR").expect("cargo gives the manifest's folder");
    let root = Path::new(&manifest).join("../..");
    let given = env::var("RUST").ok().filter(|folder| !folder.is_empty());
    root.join(given.unwrap_or_else(|| "../shared/docs/src".to_string()))
}

/// Writes OUT_DIR/source.rs: one public module for each file, read where it lies.
fn bring_in(files: &[(&str, &str)]) {
    println!("cargo:rerun-if-env-changed=RUST");
    let mut text = String::new();
    for (module, path) in files {
        let file = source_folder().join(path);
        let file = file
            .canonicalize()
            .unwrap_or_else(|e| panic!("{}: {e}; RUST names the folder of the Rust's source", file.display()));
        println!("cargo:rerun-if-changed={}", file.display());
        text += &format!("#[allow(warnings)]\n#[path = {file:?}]\npub mod {module};\n");
    }
    let out = env::var("OUT_DIR").expect("cargo gives the output folder");
    fs::write(Path::new(&out).join("source.rs"), text).expect("the output folder can be written");
}
