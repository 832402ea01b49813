//! The listing's list: calls that are accepted, and calls that are refused with 1, 2, 3, 4 and 9.

use crate::line::Line;
use crate::list::{List, Words};
use crate::listing::{listing, Listing, RECORD, WORDS};
use random::Random;
use reinfors_games::kuhn::KuhnPoker;
use reinfors_games::leduc::LeducPoker;
use std::sync::OnceLock;

pub const KUHN: u64 = 0;
pub const LEDUC: u64 = 1;

/// One call: the game's number, its seats, the words of work memory and the bytes of output that are lent.
#[derive(Clone, Copy, Debug)]
pub struct Call {
    pub game: u64,
    pub seats: u64,
    pub words: u64,
    pub room: u64,
}

/// The listing of a game whose seats are right, made once; none where its tree is too large.
pub fn listing_of(game: u64, seats: u64) -> Option<&'static Listing> {
    static KUHNS: [OnceLock<Option<Listing>>; 11] = [const { OnceLock::new() }; 11];
    static LEDUCS: OnceLock<Option<Listing>> = OnceLock::new();
    if game == KUHN {
        let players = seats as usize;
        return KUHNS[players].get_or_init(|| listing(&KuhnPoker { players })).as_ref();
    }
    LEDUCS.get_or_init(|| listing(&LeducPoker)).as_ref()
}

impl Call {
    fn lent(game: u64, seats: u64, words: u64, room: u64) -> Self {
        Call { game, seats, words, room }
    }

    fn seats_out(&self) -> bool {
        match self.game {
            KUHN => KuhnPoker { players: self.seats as usize }.validate().is_err(),
            _ => self.seats != 2,
        }
    }

    /// The listing, or the number of the first check that refuses the call.
    pub fn asked(&self) -> Result<&'static Listing, u64> {
        if self.game > LEDUC {
            return Err(1);
        }
        if self.seats_out() {
            return Err(2);
        }
        let listing = listing_of(self.game, self.seats).ok_or(3u64)?;
        if self.words < listing.words() {
            return Err(4);
        }
        if self.room < listing.room() {
            return Err(9);
        }
        Ok(listing)
    }

    /// The answer's line, and below it the sets of an accepted call.
    fn answer(&self, list: &mut List) -> String {
        let (refusal, nodes, sets) = match self.asked() {
            Ok(listing) => (0, listing.nodes, listing.sets.as_slice()),
            Err(refusal) => (refusal, 0, [].as_slice()),
        };
        list.count(refusal);
        let mut line = Line::new(true);
        for number in [refusal, nodes, sets.len() as u64] {
            line.number(number);
            line.say(number);
        }
        let written = sets.concat();
        line.bytes(&written);
        line.bytes_left(written.len(), self.room);
        line.words_left(WORDS * nodes, self.words);
        let mut text = line.end();
        sets.iter().for_each(|record| text += &("\n".to_string() + &hex(record)));
        text
    }
}

fn hex(bytes: &[u8]) -> String {
    bytes.iter().map(|byte| format!("{byte:02x}")).collect()
}

/// The answer to one record of the list.
pub fn answer(record: &str) -> String {
    let mut record = Words::new(record);
    let mut list = List::default();
    list.listing(Call::lent(record.number(), record.number(), record.number(), record.number()));
    list.stdout
}

impl List {
    fn listing(&mut self, call: Call) {
        let answer = call.answer(self);
        self.push(&[call.game, call.seats, call.words, call.room], &answer);
    }
}

/// Numbers that a cut to 8, 16 or 32 bits would take for Kuhn, Leduc or two seats.
const FAR: [u64; 7] = [256, 257, 258, 65_538, 1 << 32, (1 << 32) + 2, u64::MAX];

/// The whole list.
pub fn list(seed: u64) -> List {
    let mut random = Random::new(seed);
    let mut list = List::default();
    let games = [(KUHN, 2), (KUHN, 3), (KUHN, 4), (LEDUC, 2)];
    for (game, seats) in games {
        let listing = listing_of(game, seats).expect("a small tree");
        let (words, room) = (listing.words(), listing.room());
        let mut lent = |words, room| list.listing(Call::lent(game, seats, words, room));
        enough(words, room, &mut lent);
        too_few_words(words, room, &mut random, &mut lent);
        too_short_outputs(words, room, &mut random, &mut lent);
    }
    for (words, room) in [(0, 0), (0, 288), (696, 0), (695, 287), (696, 288), (1_000, 1_000)] {
        let mut lent = |game, seats| list.listing(Call::lent(game, seats, words, room));
        (2..=5).chain(FAR).for_each(|game| lent(game, 2));
        [0, 1, 7, 11].into_iter().for_each(|seats| lent(2, seats));
        [0, 1, 11, 12].into_iter().chain(FAR).for_each(|seats| lent(KUHN, seats));
        [0, 1, 3, 4, 10].into_iter().chain(FAR).for_each(|seats| lent(LEDUC, seats));
        (5..=10).for_each(|seats| lent(KUHN, seats));
    }
    (5..=10).for_each(|seats| list.listing(Call::lent(KUHN, seats, 113_484, 22_464)));
    list
}

/// Just enough, and more than enough.
fn enough(words: u64, room: u64, lent: &mut impl FnMut(u64, u64)) {
    for (more_words, more_room) in [(0, 0), (1, 0), (0, 1), (5, 24), (7, 25)] {
        lent(words + more_words, room + more_room);
    }
}

/// 4, also where the output is too short.
fn too_few_words(words: u64, room: u64, random: &mut Random, lent: &mut impl FnMut(u64, u64)) {
    for few in [words - 1, words - WORDS, words / WORDS, 1, 0] {
        lent(few, room);
    }
    lent(words - 1, room - 1);
    lent(0, 0);
    (0..8).for_each(|_| lent(random.below(words as usize) as u64, random.below(room as usize + 1) as u64));
}

fn too_short_outputs(words: u64, room: u64, random: &mut Random, lent: &mut impl FnMut(u64, u64)) {
    for short in [room - 1, room - RECORD as u64, room / RECORD as u64, 1, 0] {
        lent(words, short);
    }
    lent(words + 7, room - 1);
    (0..8).for_each(|_| lent(words, random.below(room as usize) as u64));
}
