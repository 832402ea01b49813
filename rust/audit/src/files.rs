//! The texts that are held to each other, by their paths from the repository's root.

use std::collections::{BTreeMap, BTreeSet};
use std::fs;
use std::path::Path;

#[derive(Clone)]
pub struct Files {
    texts: BTreeMap<String, String>,
}

/// The files of a crate that are read, by folder and extension.
const OF_A_CRATE: [(&str, &str); 2] = [("src", "rt"), ("specs", "antt")];

/// What else is read.
const LIBRARY: &str = "rust/chukkanalli/src";
const SINGLE: [&str; 4] = ["include/chukkanalli.h", "docs/API.md", "compare/cases.c", "rust/audit/pending.txt"];

/// The names in a folder.
fn entries(root: &Path, folder: &str) -> Vec<String> {
    let entries = fs::read_dir(root.join(folder)).unwrap_or_else(|error| panic!("{folder}: {error}"));
    let name = |entry: std::io::Result<fs::DirEntry>| entry.ok()?.file_name().into_string().ok();
    entries.map(|entry| name(entry).unwrap_or_else(|| panic!("{folder}: an entry has no name"))).collect()
}

impl Files {
    /// The repository's own texts.
    pub fn of_repository() -> Files {
        Files::read(&Path::new(env!("CARGO_MANIFEST_DIR")).join("../.."))
    }

    pub fn read(root: &Path) -> Files {
        let mut files = Files { texts: BTreeMap::new() };
        for name in entries(root, "crates") {
            for (folder, extension) in OF_A_CRATE {
                let folder = format!("crates/{name}/{folder}");
                if root.join(&folder).is_dir() {
                    files.read_folder(root, &folder, extension);
                }
            }
        }
        files.read_folder(root, LIBRARY, "rs");
        for path in SINGLE {
            files.read_file(root, path);
        }
        files
    }

    fn read_folder(&mut self, root: &Path, folder: &str, extension: &str) {
        for name in entries(root, folder) {
            let path = format!("{folder}/{name}");
            if root.join(&path).is_dir() {
                self.read_folder(root, &path, extension);
            } else if path.ends_with(&format!(".{extension}")) {
                self.read_file(root, &path);
            }
        }
    }

    fn read_file(&mut self, root: &Path, path: &str) {
        let text = fs::read_to_string(root.join(path)).unwrap_or_else(|error| panic!("{path}: {error}"));
        self.texts.insert(path.to_string(), text);
    }

    /// Files of these paths and texts, for tests.
    pub fn of(texts: &[(&str, &str)]) -> Files {
        Files { texts: texts.iter().map(|(path, text)| (path.to_string(), text.to_string())).collect() }
    }

    pub fn text(&self, path: &str) -> Result<&str, String> {
        self.entry(path).map(|(_, text)| text)
    }

    /// A file's path and text, which last as long as these.
    pub fn entry(&self, path: &str) -> Result<(&str, &str), String> {
        let found = self.texts.get_key_value(path).map(|(path, text)| (path.as_str(), text.as_str()));
        found.ok_or_else(|| format!("{path}: there is no such file"))
    }

    pub fn has(&self, path: &str) -> bool {
        self.texts.contains_key(path)
    }

    /// The files below a folder that have an extension, by path.
    pub fn below<'a>(&'a self, folder: &'a str, extension: &'a str) -> impl Iterator<Item = (&'a str, &'a str)> + 'a {
        let inside = move |path: &str| {
            path.strip_prefix(folder).is_some_and(|rest| rest.starts_with('/'))
                && path.rsplit_once('.').is_some_and(|(_, end)| end == extension)
        };
        self.texts.iter().filter(move |(path, _)| inside(path)).map(|(path, text)| (path.as_str(), text.as_str()))
    }

    /// The names of the crates.
    pub fn crates(&self) -> BTreeSet<&str> {
        let inside = self.texts.keys().filter_map(|path| path.strip_prefix("crates/")?.split_once('/'));
        inside.map(|(name, _)| name).collect()
    }

    /// A copy in which a text that stands once in a file gives way to another.
    pub fn replaced(&self, path: &str, old: &str, new: &str) -> Files {
        let text = self.text(path).expect("the file is there");
        assert_eq!(text.matches(old).count(), 1, "{path}: how often {old:?} stands there");
        let mut copy = self.clone();
        copy.texts.insert(path.to_string(), text.replace(old, new));
        copy
    }

    /// A copy in which a file has another path, and a text in all files gives way to another.
    pub fn renamed(&self, from: &str, to: &str, old: &str, new: &str) -> Files {
        let name = |path: &String| if path == from { to.to_string() } else { path.clone() };
        Files { texts: self.texts.iter().map(|(path, text)| (name(path), text.replace(old, new))).collect() }
    }

    /// A copy with one more file.
    pub fn with(&self, path: &str, text: &str) -> Files {
        let mut copy = self.clone();
        copy.texts.insert(path.to_string(), text.to_string());
        copy
    }
}
