//! Where tables come from: files, the files of a folder, a list of names, standard input.

use std::borrow::Cow;
use std::collections::HashSet;
use std::ffi::OsString;
use std::fs;
use std::os::unix::ffi::{OsStrExt, OsStringExt};
use std::os::unix::fs::{FileTypeExt, MetadataExt};
use std::path::{Path, PathBuf};

use chukkanalli::tables::{self, Faults, Number};

use crate::console::Console;
use crate::names::file_name;

/// The name that stands for standard input.
const INPUT: &str = "-";

/// The bytes of a list of names at most.
const MOST_OF_A_LIST: usize = 1 << 30;

/// A table or profile that is to be read, under the name that it is told by.
pub struct Source {
    pub name: String,
    content: Content,
}

enum Content {
    File(PathBuf),
    /// What was read already, or why it could not be.
    Read(Result<Vec<u8>, Faults>),
}

impl Source {
    /// The one that a path names; a folder is none.
    pub fn one<T: Number>(path: &Path, console: &mut Console) -> Self {
        if path == Path::new(INPUT) {
            return Source::input::<T>(console);
        }
        Source { name: file_name(path), content: Content::File(path.to_path_buf()) }
    }

    fn input<T: Number>(console: &mut Console) -> Self {
        let bytes = tables::bytes_from::<T>(console.input());
        Source { name: "standard input".to_string(), content: Content::Read(bytes) }
    }

    fn refused(path: &Path, faults: Faults) -> Self {
        Source { name: file_name(path), content: Content::Read(Err(faults)) }
    }

    /// Its bytes, which are to hold such numbers.
    pub fn bytes<T: Number>(&self) -> Result<Cow<'_, [u8]>, Faults> {
        match &self.content {
            Content::File(path) => tables::bytes_of::<T>(path).map(Cow::Owned),
            Content::Read(bytes) => bytes.as_deref().map(Cow::Borrowed).map_err(Faults::clone),
        }
    }

    /// Reads a pipe, which can be read but once.
    pub fn keep_pipe<T: Number>(&mut self) {
        if let Content::File(path) = &self.content {
            if fs::metadata(path).is_ok_and(|file| file.file_type().is_fifo()) {
                self.content = Content::Read(tables::bytes_of::<T>(path));
            }
        }
    }

    /// The path of a file.
    pub fn path(&self) -> Option<&Path> {
        match &self.content {
            Content::File(path) => Some(path),
            Content::Read(_) => None,
        }
    }
}

/// All tables that the paths and the list stand for, each once. One that is named twice is told. Fails where the list cannot be read.
pub fn gather(paths: &[PathBuf], list: Option<&Path>, console: &mut Console) -> Result<Vec<Source>, String> {
    let mut gathered = Gathered::default();
    let listed = match list {
        Some(list) => read_list(list, &mut gathered, console)?,
        None => Vec::new(),
    };
    for path in paths.iter().chain(&listed) {
        gathered.add(path, console);
    }
    Ok(gathered.sources)
}

/// The names of a list, one a line, or with a NUL behind each.
fn read_list(list: &Path, gathered: &mut Gathered, console: &mut Console) -> Result<Vec<PathBuf>, String> {
    let (name, read) = if list == Path::new(INPUT) {
        gathered.input_is_taken = true;
        ("standard input".to_string(), tables::limited(console.input(), MOST_OF_A_LIST))
    } else {
        let file = tables::opened(list);
        (file_name(list), file.and_then(|file| tables::limited(file, MOST_OF_A_LIST)))
    };
    let bytes = read.map_err(|error| tables::unreadable(error).sentences(&name).join("\n"))?;
    let end = if bytes.contains(&0) { 0 } else { b'\n' };
    let names = bytes.split(|&byte| byte == end).map(|line| match line {
        [line @ .., b'\r'] if end == b'\n' => line,
        line => line,
    });
    let names: Vec<PathBuf> =
        names.filter(|name| !name.is_empty()).map(|name| OsString::from_vec(name.to_vec()).into()).collect();
    if names.is_empty() {
        return Err(format!("{name}: this list names no file"));
    }
    Ok(names)
}

/// The tables so far, and what they are told apart by.
#[derive(Default)]
struct Gathered {
    sources: Vec<Source>,
    seen: HashSet<Identity>,
    input_is_taken: bool,
}

/// One file under any of its names, else the name.
#[derive(PartialEq, Eq, Hash)]
enum Identity {
    File(u64, u64),
    Name(PathBuf),
}

impl Gathered {
    fn add(&mut self, path: &Path, console: &mut Console) {
        if path == Path::new(INPUT) {
            self.add_input(console);
        } else if path.is_dir() {
            self.add_folder(path, console);
        } else {
            self.add_file(path, console);
        }
    }

    fn add_input(&mut self, console: &mut Console) {
        if self.input_is_taken {
            console.note("standard input is named twice, and is read once");
            return;
        }
        self.input_is_taken = true;
        self.sources.push(Source::input::<u8>(console));
    }

    /// The files right in a folder, by their names: no folders, and none whose name begins with a dot.
    fn add_folder(&mut self, folder: &Path, console: &mut Console) {
        let listed = fs::read_dir(folder).and_then(Iterator::collect::<Result<Vec<_>, _>>);
        let mut files: Vec<PathBuf> = match listed {
            Ok(listed) => listed.iter().map(|entry| folder.join(entry.file_name())).collect(),
            Err(error) => return self.sources.push(Source::refused(folder, tables::unreadable(error))),
        };
        files.retain(|path| !path.file_name().is_some_and(|name| name.as_bytes().starts_with(b".")) && !path.is_dir());
        files.sort();
        if files.is_empty() {
            self.sources.push(Source::refused(folder, Faults::of_file("this folder has no file in it")));
        }
        for file in &files {
            self.add_file(file, console);
        }
    }

    fn add_file(&mut self, path: &Path, console: &mut Console) {
        let identity = match fs::metadata(path) {
            Ok(file) => Identity::File(file.dev(), file.ino()),
            Err(_) => Identity::Name(path.to_path_buf()),
        };
        if self.seen.insert(identity) {
            self.sources.push(Source { name: file_name(path), content: Content::File(path.to_path_buf()) });
        } else {
            console.note(format_args!("{}: this file is named twice, and is taken once", file_name(path)));
        }
    }
}
