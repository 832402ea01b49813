//! The bytes of a file, bounded and without waiting for a writer that is not there.

use std::fs::{self, File, OpenOptions};
use std::io::{self, ErrorKind, Read};
use std::os::unix::fs::{FileTypeExt, OpenOptionsExt};
use std::path::Path;
use std::thread;
use std::time::Duration;

use super::fault::Faults;
use super::number::Number;

/// The bytes of a file at most; a table of 2,688 entries with a line of words for each takes a hundredth of it.
pub const MOST_BYTES: usize = 16 << 20;

/// What most files fit in, so that reading them takes no memory twice.
const FEW_BYTES: usize = 128 << 10;

/// Linux's flag for an open that does not wait, O_NONBLOCK.
const WITHOUT_WAITING: i32 = 0o4000;

/// How long a pipe with a writer is left alone before it is asked again.
const PAUSE: Duration = Duration::from_millis(2);

/// The bytes of a file that is to hold such numbers.
pub fn bytes_of<T: Number>(path: &Path) -> Result<Vec<u8>, Faults> {
    let kind = fs::metadata(path).map_err(unreadable)?.file_type();
    if kind.is_dir() {
        return Err(Faults::of_file(format!("this is a folder, not a {}", T::FILE)));
    }
    let bytes = bytes_from::<T>(opened(path).map_err(unreadable)?)?;
    if bytes.is_empty() && kind.is_fifo() {
        return Err(Faults::of_file("this is a pipe that nobody writes to"));
    }
    Ok(bytes)
}

/// Opens a file; a pipe without a writer is at its end.
pub fn opened(path: &Path) -> io::Result<impl Read> {
    let mut options = OpenOptions::new();
    if fs::metadata(path)?.file_type().is_fifo() {
        options.custom_flags(WITHOUT_WAITING);
    }
    options.read(true).open(path).map(Patient)
}

/// The bytes of an open file that is to hold such numbers.
pub fn bytes_from<T: Number>(file: impl Read) -> Result<Vec<u8>, Faults> {
    limited(file, MOST_BYTES).map_err(|error| match error.kind() {
        ErrorKind::FileTooLarge => {
            Faults::of_file(format!("this is no {}: it has more than {MOST_BYTES} bytes", T::FILE))
        }
        _ => unreadable(error),
    })
}

/// The bytes of an open file, an error where there are more than so many.
pub fn limited(file: impl Read, most: usize) -> io::Result<Vec<u8>> {
    let mut bytes = Vec::with_capacity(FEW_BYTES);
    file.take(most as u64 + 1).read_to_end(&mut bytes)?;
    if bytes.len() > most {
        return Err(ErrorKind::FileTooLarge.into());
    }
    Ok(bytes)
}

/// A file that is asked again while it is a pipe with a writer and no bytes.
struct Patient(File);

impl Read for Patient {
    fn read(&mut self, bytes: &mut [u8]) -> io::Result<usize> {
        loop {
            match self.0.read(bytes) {
                Err(error) if error.kind() == ErrorKind::WouldBlock => thread::sleep(PAUSE),
                answer => return answer,
            }
        }
    }
}

/// What is said of a file that cannot be read.
pub fn unreadable(error: io::Error) -> Faults {
    match error.kind() {
        ErrorKind::NotFound => Faults::of_file("there is no such file"),
        ErrorKind::PermissionDenied => Faults::of_file("there is no permission to read it"),
        _ => Faults::of_file(format!("this file cannot be read: {error}")),
    }
}

#[cfg(test)]
mod tests {
    use super::*;

    fn fault<T: Number>(path: &str) -> String {
        bytes_of::<T>(Path::new(path)).unwrap_err().to_string()
    }

    #[test]
    fn files_that_are_none_are_named() {
        assert_eq!(fault::<u8>("there/is/no/such/file"), "there is no such file");
        assert_eq!(fault::<u8>("/"), "this is a folder, not a table");
        assert_eq!(fault::<f64>("/"), "this is a folder, not a profile");
        assert_eq!(fault::<u8>("/dev/zero"), "this is no table: it has more than 16777216 bytes");
        assert_eq!(fault::<f64>("/dev/zero"), "this is no profile: it has more than 16777216 bytes");
        assert_eq!(unreadable(ErrorKind::PermissionDenied.into()).to_string(), "there is no permission to read it");
        assert_eq!(bytes_of::<u8>(Path::new("/dev/null")), Ok(Vec::new()));
    }
}
