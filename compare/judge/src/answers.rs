//! `answers GAME`: the judge's answers to the records of standard input, for GAME kuhn or leduc, or `answers listing`, `answers units`, `answers floats`.

use judge::list::answer;
use judge::{floats_lists, kuhn_lists, leduc_lists, listing_lists, units_lists};
use std::{env, io};

fn main() -> io::Result<()> {
    let answer = match env::args().nth(1).as_deref() {
        Some("kuhn") => answer::<kuhn_lists::Given>,
        Some("leduc") => answer::<leduc_lists::Given>,
        Some("listing") => listing_lists::answer,
        Some("units") => units_lists::answer,
        Some("floats") => floats_lists::answer,
        _ => panic!("usage: answers kuhn, leduc, listing, units or floats"),
    };
    for record in io::stdin().lines() {
        print!("{}", answer(&record?));
    }
    Ok(())
}
