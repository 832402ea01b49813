//! Reads the repository's texts. What crates/ exports is compared with the header, the Rust library, the documents and the cases
//! (`border`), and what the contracts of public calls cite is followed through specs/ (`reach`).

pub mod antt;
pub mod border;
pub mod documents;
pub mod files;
pub mod header;
pub mod interface;
pub mod items;
pub mod library;
pub mod rattle;
pub mod reach;
pub mod tokens;
