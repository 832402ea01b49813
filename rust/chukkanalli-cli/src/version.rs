//! What the program was built from, for whoever asks a year later.

pub const VERSION: &str = env!("CARGO_PKG_VERSION");
pub const COMMIT: &str = env!("CHUKKANALLI_COMMIT");

/// What --version prints.
pub fn text() -> String {
    format!("chukkanalli {VERSION} (commit {COMMIT})\n")
}
