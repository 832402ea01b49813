//! The refusals of document 01.

use std::error::Error;
use std::fmt;

/// The enum, the list of all and the sentences, from one line for each refusal.
macro_rules! refusals {
    ($($name:ident = $number:literal, $sentence:literal;)*) => {
        /// Why a call was refused: the first of document 01's numbers that applies.
        #[derive(Clone, Copy, Debug, PartialEq, Eq, PartialOrd, Ord, Hash)]
        #[repr(u64)]
        pub enum Refusal {
            $(#[doc = $sentence] $name = $number,)*
        }

        impl Refusal {
            /// All of them, by number.
            pub const ALL: [Refusal; [$($number),*].len()] = [$(Refusal::$name),*];

            /// What it says, without its number.
            pub fn sentence(self) -> &'static str {
                match self {
                    $(Refusal::$name => $sentence,)*
                }
            }
        }
    };
}

// rust/audit holds these lines to crates/refusals.
refusals! {
    Game = 1, "the game is neither Kuhn nor Leduc";
    Seats = 2, "the seat count is outside 2 to 10 for Kuhn, or not 2 for Leduc";
    Tree = 3, "the tree has more than 4,000,000 nodes, which is Kuhn with 7 to 10 seats";
    Memory = 4, "the work memory has fewer than 12 words of 64 bits per node of the tree";
    Seat = 5, "the seat is not below the seat count";
    Parts = 6, "D, the parts per set, is 0, or above 64 (Leduc, Kuhn 2 to 4) or above 16 (Kuhn 5 and 6)";
    Table = 7, "the table's or profile's length is not exactly the entry count";
    Sum = 8, "in some set the parts do not add up to D";
    Output = 9, "an output is shorter than its answer";
    CardCount = 10, "a saved position does not hold one card per seat";
    Card = 11, "a card is not in the deck";
    CardTwice = 12, "a card appears twice";
    History = 13, "a history is too long or holds an unknown action";
    Closed = 14, "an action stands after the hand or its round closed, or in round 2 before round 1 closed";
    Illegal = 15, "a Leduc action was not legal when made";
    NoPublic = 16, "a live second round has no public card";
    EarlyPublic = 17, "a public card lies there before round 1 closed";
    EndMark = 18, "the saved end mark differs from the position";
    Unreachable = 19, "the position cannot be reached from the start by legal moves";
    Unfit = 20, "the call does not fit the position";
}

impl Refusal {
    /// The number that document 01 gives it.
    pub fn number(self) -> u64 {
        self as u64
    }

    /// The refusal of a number; 0, which is an accepted call, and numbers above the last are none.
    pub fn from_number(number: u64) -> Option<Refusal> {
        Refusal::ALL.into_iter().find(|refusal| refusal.number() == number)
    }
}

impl fmt::Display for Refusal {
    fn fmt(&self, f: &mut fmt::Formatter<'_>) -> fmt::Result {
        write!(f, "refused with {}: {}", self.number(), self.sentence())
    }
}

impl Error for Refusal {}

#[cfg(test)]
mod tests {
    use super::*;
    use std::collections::HashSet;

    #[test]
    fn every_number_from_1_on_has_a_refusal_and_no_other_has_one() {
        let last = Refusal::ALL.len() as u64;
        let numbers: Vec<u64> = Refusal::ALL.iter().map(|refusal| refusal.number()).collect();
        assert_eq!(numbers, (1..=last).collect::<Vec<_>>());
        for refusal in Refusal::ALL {
            assert_eq!(Refusal::from_number(refusal.number()), Some(refusal));
        }
        for number in [0, last + 1, 256 + 1, (1 << 32) + 1, u64::MAX] {
            assert_eq!(Refusal::from_number(number), None);
        }
    }

    #[test]
    fn each_has_a_sentence_of_its_own_behind_its_number() {
        let sentences: HashSet<&str> = Refusal::ALL.iter().map(|refusal| refusal.sentence()).collect();
        assert_eq!(sentences.len(), Refusal::ALL.len());
        let error: Box<dyn Error> = Box::new(Refusal::Sum);
        assert_eq!(error.to_string(), "refused with 8: in some set the parts do not add up to D");
    }
}
