//! The list of f64 values: profiles that are accepted, most with all five calls, and calls that are refused with 1 to 5 and 7.

use crate::exact::{kuhn, leduc, probabilities, Tree};
use crate::floats::{Call, Evaluation, EVALUATIONS};
use crate::line::Line;
use crate::list::{List, Words};
use crate::listing_lists::{KUHN, LEDUC};
use crate::parts::{CASE_K, CASE_L};
use crate::profiles::{profile, Kind, KINDS};
use crate::units_lists::FAR;
use random::Random;

/// The letter of each call, in the order of `EVALUATIONS`.
const LETTERS: [&str; 5] = ["B", "R", "P", "N", "E"];
/// The code of a line that asks for every call.
const ALL: u64 = LETTERS.len() as u64;

/// A line: the code of the call or of all, what it is lent, and how many of the entries it gives; the others repeat these.
struct Record {
    code: u64,
    call: Call,
    /// The first word that an accepted call leaves.
    kept: u64,
    given: usize,
}

impl Record {
    fn words(&self) -> Vec<u64> {
        let Call { game, seats, words, seat, profile } = &self.call;
        let heads = [self.code, *game, *seats, *words, self.kept, *seat, profile.len() as u64, self.given as u64];
        heads.into_iter().chain(profile[..self.given].iter().map(|entry| entry.to_bits())).collect()
    }

    fn read(record: &mut Words) -> Self {
        let (code, game, seats, words) = (record.number(), record.number(), record.number(), record.number());
        let (kept, seat, entries, given) = (record.number(), record.number(), record.number(), record.number());
        let numbers: Vec<f64> = (0..given).map(|_| f64::from_bits(record.number())).collect();
        let profile = repeated(&numbers, entries as usize);
        Record { code, call: Call { game, seats, words, seat, profile }, kept, given: given as usize }
    }

    fn answer(&self, list: &mut List) -> String {
        let mut line = Line::new(true);
        for (code, (letter, asked)) in (0..).zip(LETTERS.into_iter().zip(EVALUATIONS)) {
            if self.code == code || self.code == ALL {
                line.say(letter);
                self.values(asked, &mut line, list);
            }
        }
        line.end()
    }

    /// All fields of a call's answer, and into the checksum the words that it had to leave: all of them if it was refused.
    fn values(&self, asked: Evaluation, line: &mut Line, list: &mut List) {
        let answer = self.call.answer(asked);
        list.count(answer.refusal);
        line.say(answer.refusal);
        line.say(answer.count);
        answer.bits.iter().for_each(|bits| line.say(bits));
        let from = if answer.refusal == 0 { self.kept } else { 0 };
        line.words_left(from, self.call.words);
    }
}

/// A profile of so many entries that repeats some numbers.
fn repeated(numbers: &[f64], entries: usize) -> Vec<f64> {
    numbers.iter().copied().cycle().take(entries).collect()
}

/// The answer to one record of the list.
pub fn answer(record: &str) -> String {
    let mut list = List::default();
    list.floats(Record::read(&mut Words::new(record)));
    list.stdout
}

impl List {
    fn floats(&mut self, record: Record) {
        let answer = record.answer(self);
        self.push(&record.words(), &answer);
    }

    /// A call whose profile repeats its first numbers.
    fn lend_floats(&mut self, code: u64, call: Call, given: usize) {
        let kept = call.kept();
        self.floats(Record { code, call, kept, given });
    }
}

/// The whole list.
pub fn list(seed: u64) -> List {
    let mut random = Random::new(seed);
    let mut list = List::default();
    cases(&mut list);
    for (game, tree, times) in [(KUHN, kuhn(2), 16), (KUHN, kuhn(3), 6), (KUHN, kuhn(4), 3), (LEDUC, leduc(), 1)] {
        for kind in KINDS {
            (0..times).for_each(|time| lend_profile(&mut list, game, tree, kind, time, &mut random));
            patterns(&mut list, game, tree, kind, &mut random);
        }
        Refused { list: &mut list, call: Call::of(game, tree, 0, vec![0.25; tree.entries]) }.all();
    }
    list
}

/// Cases k and l as probabilities.
fn cases(list: &mut List) {
    for (table, d) in [(CASE_K, 1), (CASE_L, 3)] {
        for seat in 0..2 {
            list.lend_floats(ALL, Call::of(KUHN, kuhn(2), seat, probabilities(&table, d)), 24);
        }
    }
}

/// A profile with all five calls, for each seat in turn, and lent a little more than enough once in two.
fn lend_profile(list: &mut List, game: u64, tree: &Tree, kind: Kind, time: u64, random: &mut Random) {
    let mut call = Call::of(game, tree, time % tree.seats as u64, profile(tree, kind, random));
    call.words += random.below(2) as u64 * random.below(8) as u64;
    list.lend_floats(ALL, call, tree.entries);
}

/// The calls one by one on profiles that repeat some numbers, the first for each seat; then all, with a seat that is none.
fn patterns(list: &mut List, game: u64, tree: &Tree, kind: Kind, random: &mut Random) {
    let mut lend = |code, seat| {
        let numbers = &profile(kuhn(3), kind, random)[..5 + random.below(19)];
        let call = Call::of(game, tree, seat, repeated(numbers, tree.entries));
        list.lend_floats(code, call, numbers.len());
    };
    (0..tree.seats as u64).for_each(|seat| lend(0, seat));
    (1..ALL).for_each(|code| lend(code, code));
    lend(ALL, tree.seats as u64);
}

/// Calls of one game that are refused, every one of the five at once, some with later reasons too.
struct Refused<'a> {
    list: &'a mut List,
    call: Call,
}

impl Refused<'_> {
    fn all(&mut self) {
        if self.call.profile.len() == kuhn(2).entries {
            self.games_and_seats();
            self.less_memory();
        }
        self.memory();
        self.no_seats();
        self.lengths();
    }

    fn lend(&mut self, call: Call) {
        let given = call.profile.len().min(2);
        self.list.lend_floats(ALL, call, given);
    }

    fn resized(&self, length: usize) -> Call {
        Call { profile: repeated(&self.call.profile, length), ..self.call }
    }

    /// 1, 2 and 3, whatever else is wrong.
    fn games_and_seats(&mut self) {
        for far in FAR {
            self.lend(Call { game: far, ..self.call.clone() });
            self.lend(Call { seats: far, words: 0, ..self.call.clone() });
        }
        for seats in [0, 1, 7, 8, 9, 10, 11] {
            self.lend(Call { seats, ..self.call.clone() });
            self.lend(Call { game: 2, seats, ..self.resized(0) });
            self.lend(Call { game: LEDUC, seats: seats + 3, seat: 9, ..self.call.clone() });
        }
    }

    /// 4, also where the memory is enough for another tree.
    fn less_memory(&mut self) {
        for words in [0, 1, self.call.words / 12, self.call.words - 12] {
            self.lend(Call { words, ..self.call.clone() });
        }
        (5..=6).for_each(|seats| self.lend(Call { seats, ..self.call.clone() }));
    }

    fn memory(&mut self) {
        let words = self.call.words - 1;
        self.lend(Call { words, ..self.call.clone() });
        self.lend(Call { words, seat: self.call.seats, ..self.resized(1) });
    }

    /// 5, which one call alone gives, before 7.
    fn no_seats(&mut self) {
        let seats = self.call.seats;
        for seat in FAR.into_iter().chain([seats, seats + 1]) {
            self.lend(Call { seat, ..self.resized(1) });
        }
        self.list.lend_floats(0, Call { seat: seats, ..self.call.clone() }, 2);
    }

    /// 7: a set too few, an entry too few, one too many, a set too many, none.
    fn lengths(&mut self) {
        let entries = self.call.profile.len();
        for length in [0, 1, entries - 2, entries - 1, entries + 1, entries + 2] {
            let call = self.resized(length);
            self.lend(call);
        }
    }
}
