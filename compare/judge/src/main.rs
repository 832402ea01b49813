//! `lists SEED FOLDER`: writes stdin and stdout of each replay program NAME, to FOLDER/NAME if there is such a program.

use judge::{floats_lists, kuhn_lists, leduc_lists, listing_lists, units_lists};
use std::path::Path;
use std::{env, io};

/// The numbers that Kuhn's calls give.
const KUHN: [usize; 11] = [0, 2, 9, 10, 11, 12, 13, 14, 18, 19, 20];
/// The numbers that Leduc's calls give.
const LEDUC: [usize; 13] = [0, 9, 10, 11, 12, 13, 14, 15, 16, 17, 18, 19, 20];
/// The numbers that the listing gives.
const LISTING: [usize; 6] = [0, 1, 2, 3, 4, 9];
/// The numbers that the calls in whole units give.
const UNITS: [usize; 10] = [0, 1, 2, 3, 4, 5, 6, 7, 8, 9];

/// The numbers that the calls in f64 give.
const FLOATS: [usize; 7] = [0, 1, 2, 3, 4, 5, 7];

fn main() -> io::Result<()> {
    let arguments: Vec<String> = env::args().collect();
    let [_, seed, folder] = arguments.as_slice() else { panic!("usage: lists SEED FOLDER") };
    let seed = seed.parse().expect("the seed is a number");
    let folder = Path::new(folder);
    kuhn_lists::list(seed).write(folder, "replay_kuhn", &KUHN)?;
    leduc_lists::list(seed).write(folder, "replay_leduc", &LEDUC)?;
    listing_lists::list(seed).write(folder, "replay_listing", &LISTING)?;
    units_lists::list(seed).write(folder, "replay_units", &UNITS)?;
    floats_lists::list(seed).write(folder, "replay_f64", &FLOATS)
}
