//! The list of whole units: tables that are accepted, each with the worths, every seat's best reply and NashConv, and calls that are
//! refused with 1 to 9.

use crate::exact::{kuhn, leduc, Tree};
use crate::line::Line;
use crate::list::{List, Words};
use crate::listing_lists::{KUHN, LEDUC};
use crate::parts::{table, Kind, CASE_K, CASE_L, KINDS};
use crate::units::Call;
use random::Random;

/// The seat that is none, tried on every line beside those from 0 up to the seat count.
const NO_SEAT: u64 = u64::MAX;
/// No line asks for a reply of a higher seat but `NO_SEAT`.
const HIGHEST_SEAT: u64 = 6;

/// A line: whether the replies stand in its text, what the calls are lent, and the bytes of output.
struct Record {
    shown: bool,
    call: Call,
    /// The first word that an accepted call leaves.
    kept: u64,
    room: u64,
}

impl Record {
    fn words(&self) -> Vec<u64> {
        let code = if self.shown { 1 } else { 2 };
        let Call { game, seats, words, d, table } = &self.call;
        let heads = [code, *game, *seats, *words, self.kept, *d, self.room, table.len() as u64];
        heads.into_iter().chain(table.iter().map(|&part| u64::from(part))).collect()
    }

    fn read(record: &mut Words) -> Self {
        let shown = record.number() == 1;
        let (game, seats, words, kept) = (record.number(), record.number(), record.number(), record.number());
        let (d, room) = (record.number(), record.number());
        Record { shown, call: Call { game, seats, words, d, table: record.bytes() }, kept, room }
    }

    /// The seats whose reply is asked for: the seat count and `NO_SEAT` are none.
    fn seats(&self) -> impl Iterator<Item = u64> {
        (0..=self.call.seats.min(HIGHEST_SEAT)).chain([NO_SEAT])
    }

    fn answer(&self, list: &mut List) -> String {
        let mut line = Line::new(true);
        self.worths(&mut line, list);
        self.seats().for_each(|seat| self.reply(seat, &mut line, list));
        self.nash_conv(&mut line, list);
        line.end()
    }

    fn worths(&self, line: &mut Line, list: &mut List) {
        let answer = self.call.worths();
        list.count(answer.refusal);
        line.say("W");
        line.say(answer.refusal);
        line.say(answer.count);
        answer.worths.iter().for_each(|worth| line.say(worth));
        self.words_left(answer.refusal, line);
    }

    fn reply(&self, seat: u64, line: &mut Line, list: &mut List) {
        let answer = self.call.best_reply(seat, self.room);
        list.count(answer.refusal);
        line.say("B");
        line.say(answer.refusal);
        line.say(answer.value);
        if self.shown {
            line.say_all(&answer.reply);
        }
        line.bytes(&answer.reply);
        line.bytes_left(answer.reply.len(), self.room);
        self.words_left(answer.refusal, line);
    }

    fn nash_conv(&self, line: &mut Line, list: &mut List) {
        let answer = self.call.nash_conv();
        list.count(answer.refusal);
        line.say("N");
        line.say(answer.refusal);
        line.say(answer.nash_conv);
        line.say(answer.units);
        self.words_left(answer.refusal, line);
    }

    /// The words that a call had to leave: all of them if it was refused.
    fn words_left(&self, refusal: u64, line: &mut Line) {
        let from = if refusal == 0 { self.kept } else { 0 };
        line.words_left(from, self.call.words);
    }
}

/// The answer to one record of the list.
pub fn answer(record: &str) -> String {
    let mut list = List::default();
    list.units(Record::read(&mut Words::new(record)));
    list.stdout
}

impl List {
    fn units(&mut self, record: Record) {
        let answer = record.answer(self);
        self.push(&record.words(), &answer);
    }

    /// A call and its output, with as many bytes as are asked for.
    fn lend(&mut self, shown: bool, call: Call, room: u64) {
        let kept = call.kept();
        self.units(Record { shown, call, kept, room });
    }
}

/// The whole list.
pub fn list(seed: u64) -> List {
    let mut random = Random::new(seed);
    let mut list = List::default();
    cases(&mut list);
    tables(&mut list, KUHN, kuhn(2), 3, &mut random);
    tables(&mut list, KUHN, kuhn(3), 1, &mut random);
    few_tables(&mut list, KUHN, kuhn(4), &mut random);
    few_tables(&mut list, LEDUC, leduc(), &mut random);
    for (game, tree) in [(KUHN, kuhn(2)), (KUHN, kuhn(3)), (LEDUC, leduc())] {
        Refused { list: &mut list, game, tree }.all(&mut random);
    }
    list
}

/// Cases k and l.
fn cases(list: &mut List) {
    list.lend(true, Call::of(KUHN, kuhn(2), 1, CASE_K.to_vec()), 24);
    list.lend(true, Call::of(KUHN, kuhn(2), 3, CASE_L.to_vec()), 24);
}

/// A valid table, lent a little more than enough once in two.
fn lend_table(list: &mut List, game: u64, tree: &Tree, d: u64, kind: Kind, random: &mut Random) {
    let mut call = Call::of(game, tree, d, table(tree, d, kind, random));
    call.words += random.below(2) as u64 * random.below(8) as u64;
    let room = tree.entries as u64 + random.below(2) as u64 * random.below(26) as u64;
    list.lend(tree.entries <= 96, call, room);
}

/// So many tables of each kind with each of some D.
fn tables(list: &mut List, game: u64, tree: &Tree, times: usize, random: &mut Random) {
    for d in [1, 2, 3, 10, 63, 64] {
        for kind in KINDS {
            (0..times).for_each(|_| lend_table(list, game, tree, d, kind, random));
        }
    }
}

fn few_tables(list: &mut List, game: u64, tree: &Tree, random: &mut Random) {
    for (d, kind) in [(1, Kind::Pure), (1, Kind::Last), (2, Kind::Even), (3, Kind::Mixed), (7, Kind::Sparse)] {
        lend_table(list, game, tree, d, kind, random);
    }
    for kind in [Kind::First, Kind::Even, Kind::Sparse, Kind::Mixed, Kind::Mixed] {
        lend_table(list, game, tree, 64, kind, random);
    }
}

/// Numbers that a cut to 8, 16 or 32 bits would take for small ones.
pub const FAR: [u64; 6] = [256, 258, 65_538, 1 << 32, (1 << 32) + 2, u64::MAX];

/// Calls of one game that are refused.
struct Refused<'a> {
    list: &'a mut List,
    game: u64,
    tree: &'static Tree,
}

impl Refused<'_> {
    /// Few of Leduc, whose tables are long.
    fn all(&mut self, random: &mut Random) {
        let small = self.tree.entries <= 96;
        let call = Call::of(self.game, self.tree, 3, table(self.tree, 3, Kind::Mixed, random));
        if small {
            self.games_and_seats(&call);
            self.parts_out(&call);
        }
        self.memory(&call, small);
        self.lengths(&call, small);
        self.sums(&call, random);
        self.rooms(&call, small);
    }

    fn lend(&mut self, call: Call) {
        let room = self.tree.entries as u64;
        self.list.lend(false, call, room);
    }

    /// 1, 2 and 3, whatever else is wrong.
    fn games_and_seats(&mut self, call: &Call) {
        for far in FAR {
            self.lend(Call { game: far, ..call.clone() });
            self.lend(Call { seats: far, words: 0, ..call.clone() });
        }
        for seats in [0, 1, 7, 8, 9, 10, 11] {
            self.lend(Call { seats, ..call.clone() });
            self.lend(Call { game: 2, seats, d: 0, ..call.clone() });
            self.lend(Call { game: LEDUC, seats: seats + 3, ..call.clone() });
        }
    }

    /// 4, before all that is wrong with the table.
    fn memory(&mut self, call: &Call, small: bool) {
        self.lend(Call { words: call.words - 1, ..call.clone() });
        self.lend(Call { words: call.words - 1, d: 0, table: Vec::new(), ..call.clone() });
        if small {
            for words in [0, 1, call.words / 12, call.words - 12] {
                self.lend(Call { words, ..call.clone() });
                self.lend(Call { words, d: 65, ..call.clone() });
            }
            self.lend(Call { seats: 5, ..call.clone() });
            self.lend(Call { seats: 6, d: 17, ..call.clone() });
        }
    }

    /// 6, before the table's length and sums.
    fn parts_out(&mut self, call: &Call) {
        for d in [0, 65, 66, 255, 256 + 3, 65_536 + 3, (1 << 32) + 3, u64::MAX] {
            self.lend(Call { d, ..call.clone() });
            self.lend(Call { d, table: Vec::new(), ..call.clone() });
        }
    }

    /// 7: a set too few, a part too few, one too many, a set too many, none; other games' too.
    fn lengths(&mut self, call: &Call, small: bool) {
        let entries = call.table.len();
        let resized = |length| {
            let mut table = call.table.clone();
            table.resize(length, 0);
            table
        };
        self.lend(Call { table: resized(entries + 1), ..call.clone() });
        self.lend(Call { table: resized(1), ..call.clone() });
        if small {
            for length in [0, 2, entries - 2, entries - 1, entries + 2, 120 - entries] {
                self.lend(Call { table: resized(length), ..call.clone() });
            }
        }
    }

    /// 8: a part more or less, one that moved to the next set, and sums that a byte would take for D.
    fn sums(&mut self, call: &Call, random: &mut Random) {
        let sets = &self.tree.sets;
        let places = [0, call.table.len() - 1, sets[random.below(sets.len())].first];
        for place in places {
            let changed = |by: u8| {
                let mut table = call.table.clone();
                table[place] = table[place].wrapping_add(by);
                table
            };
            self.lend(Call { table: changed(1), ..call.clone() });
            self.lend(Call { table: changed(255), ..call.clone() });
        }
        let moved = &sets[random.below(sets.len() - 1)];
        let mut table = call.table.clone();
        table[moved.first..][..moved.actions].fill(1);
        table[moved.first + moved.actions..][..2].copy_from_slice(&[4, 0]);
        self.lend(Call { table, ..call.clone() });
        let mut table = call.table.clone();
        table[..2].copy_from_slice(&[255, 4]);
        self.lend(Call { table, ..call.clone() });
        self.lend(Call { d: 4, ..call.clone() });
    }

    /// 9, and 8 before it.
    fn rooms(&mut self, call: &Call, small: bool) {
        let entries = call.table.len() as u64;
        let rooms = if small { vec![0, 1, entries / 2, entries - 2, entries - 1] } else { vec![entries - 1] };
        for room in rooms {
            self.list.lend(false, call.clone(), room);
        }
        self.list.lend(false, Call { d: 4, ..call.clone() }, entries - 1);
    }
}
