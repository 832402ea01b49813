//! What a table is worth, in columns: units, chips per hand as a fraction, and that in decimals.

use std::fmt;

use chukkanalli::tables::{game_words, ReadBy};
use chukkanalli::Game;

use crate::columns::{self, Side};
use crate::fraction::Fraction;

/// The figures of one table.
pub struct Figures {
    heading: String,
    units: u64,
    rows: Vec<[String; 4]>,
}

impl Figures {
    pub fn new(name: &str, game: Game, d: u64, units: u64, read_by: ReadBy) -> Self {
        let heading = format!("{name}: {}, D {d}, {units} units, read by {}", game_words(game), read_by.name());
        Figures { heading, units, rows: vec![["", "units", "chips per hand", "in decimals"].map(str::to_string)] }
    }

    /// Says that a table before this one has the same parts.
    pub fn mark_same(&mut self, file: &str) {
        self.heading += &format!(", same table as {file}");
    }

    /// What a seat gains by its best value over what the table is worth to it.
    pub fn add_gain(&mut self, seat: u64, worth: i64, best: i64) {
        let gain = best.abs_diff(worth);
        self.add(format!("seat {seat} gain"), gain.to_string(), Fraction::of_sum(gain, self.units));
    }

    /// What the table is worth to a seat, and the seat's best value.
    pub fn add_seat(&mut self, seat: u64, worth: i64, best: i64) {
        self.add(format!("seat {seat} worth"), worth.to_string(), Fraction::of_units(worth, self.units));
        self.add(format!("seat {seat} best value"), best.to_string(), Fraction::of_units(best, self.units));
    }

    pub fn add_nash_conv(&mut self, nash_conv: u64) {
        self.add("NashConv".to_string(), nash_conv.to_string(), Fraction::of_sum(nash_conv, self.units));
    }

    fn add(&mut self, what: String, count: String, chips: Fraction) {
        self.rows.push([what, count, chips.to_string(), chips.decimals()]);
    }
}

impl fmt::Display for Figures {
    fn fmt(&self, f: &mut fmt::Formatter<'_>) -> fmt::Result {
        let sides = [Side::Left, Side::Right, Side::Right, Side::Right];
        write!(f, "{}\n\n{}", self.heading, columns::lines(sides, &self.rows))
    }
}

#[cfg(test)]
mod tests {
    use super::*;

    #[test]
    fn figures_stand_in_columns() {
        let mut figures = Figures::new("l.txt", Game::Kuhn { seats: 2 }, 3, 162, ReadBy::Labels);
        figures.mark_same("k.txt");
        figures.add_gain(0, -9, 108);
        figures.add_seat(0, -9, 108);
        figures.add_nash_conv(117);
        let text = "\
l.txt: Kuhn with 2 seats, D 3, 162 units, read by labels, same table as k.txt

                   units  chips per hand   in decimals
seat 0 gain          117           13/18   0.722222222
seat 0 worth          -9           -1/18  -0.055555556
seat 0 best value    108             2/3   0.666666667
NashConv             117           13/18   0.722222222
";
        assert_eq!(figures.to_string(), text);
    }
}
