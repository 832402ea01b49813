//! The calls in whole units: random tables of each game, rivals of their seats, of D parts and of other grains, and calls that are refused, held to the
//! reference.

use crate::game::Game;
use crate::number::{fewer, more, number_but, other_length};
use crate::Counts;
use chukkanalli::archive::{self, best_reply, nash_conv_units, worths};
use host::memory::Memory;
use host::stack::stack_of;
use judge::exact::{Played, Sequences, SEATS};
use judge::finer::{Answered, Held, GRAINS};
use judge::parts::{equilibrium, mixed_rival, near, pure_rival, rival, table, Kind, KINDS};
use judge::units::Call;
use random::Random;

/// The mixed rivals of each game and seat, at least.
const LEAST_MIXED: usize = 10_000;

/// The finer rivals of each table and seat.
const FINER: usize = 200;

/// A game, and how much of it is compared.
struct Plan {
    game: Game,
    tables: usize,
    /// The rivals of each kind for each table and seat.
    rivals: usize,
    /// The finer rivals of each table and seat that are weighed whole too.
    whole: usize,
    /// The calls refused with each number.
    refused: usize,
}

pub fn compare(random: &mut Random) {
    let plan = |game, tables, rivals, whole, refused| Plan { game, tables, rivals, whole, refused };
    let plans = [
        plan(Game::kuhn(2), 2_400, 6, FINER, 100),
        plan(Game::kuhn(3), 480, 30, 50, 100),
        plan(Game::kuhn(4), 48, 300, 18, 20),
        plan(Game::kuhn(5), 24, 600, 3, 2),
        plan(Game::kuhn(6), 6, 2_400, 1, 1),
        plan(Game::leduc(), 48, 300, 18, 20),
    ];
    let mut counts = Counts::new();
    for plan in &plans {
        let rivals = plan.all_tables(&mut counts, random);
        let refused = plan.all_refusals(&mut counts, random);
        println!("units, {}: {} tables agree, {refused} calls are refused", plan.game.name, plan.tables);
        rivals.iter().enumerate().for_each(|(seat, rivals)| rivals.print(seat));
        assert!(rivals.iter().all(|rivals| rivals.mixed >= LEAST_MIXED), "{}: too few mixed rivals", plan.game.name);
    }
    pure_rivals(random);
    equilibria(&mut counts, random);
    println!("units: at most {} bytes of stack", plans.iter().map(Plan::stack).max().expect("six games"));
    counts.print();
}

/// How many rivals of a seat were not better, and how many of them were weighed whole too.
#[derive(Clone, Default)]
struct Rivals {
    mixed: usize,
    pure: usize,
    near: usize,
    whole: usize,
    finer: [usize; GRAINS.len()],
    finer_whole: usize,
}

impl Rivals {
    fn print(&self, seat: usize) {
        let Rivals { mixed, pure, near, whole, finer, finer_whole } = self;
        println!("  seat {seat}: {mixed} mixed rivals, {pure} pure ones and {near} near the reply are not better; {whole} are weighed whole too");
        println!("    nor are {finer:?} with {GRAINS:?} parts; {finer_whole} are weighed whole too");
    }

    fn add_finer(&mut self, held: &Held) {
        self.finer.iter_mut().zip(held.rivals).for_each(|(finer, more)| *finer += more);
        self.finer_whole += held.whole;
    }
}

/// The calls on one table, for one seat and with so many bytes of output.
struct Asked {
    call: Call,
    seat: u64,
    room: u64,
}

impl Asked {
    /// Makes the three calls and holds all they leave to the reference.
    fn held(&self, counts: &mut Counts, random: &mut Random) {
        self.worths(counts, random);
        self.best_reply(counts, random);
        self.nash_conv(counts, random);
    }

    fn memory(&self, random: &mut Random) -> Memory {
        let mut memory = Memory::new(self.call.words, self.room);
        memory.fill_at_random(random);
        memory
    }

    fn worths(&self, counts: &mut Counts, random: &mut Random) -> [i64; SEATS] {
        let Call { game, seats, d, table, .. } = &self.call;
        let mut memory = self.memory(random);
        let ours = worths(*game, *seats, &mut memory.work, *d, table);
        let judged = self.call.worths();
        let expected = archive::WorthsAnswer { refusal: judged.refusal, count: judged.count, worths: judged.worths };
        assert_eq!(ours, expected, "the worths of {:?}", self.call);
        self.left(ours.refusal, 0, &memory);
        counts.count(ours.refusal);
        ours.worths
    }

    fn best_reply(&self, counts: &mut Counts, random: &mut Random) {
        let Call { game, seats, d, table, .. } = &self.call;
        let mut memory = self.memory(random);
        let ours = best_reply(*game, *seats, &mut memory.work, self.seat, *d, table, &mut memory.out);
        let judged = self.call.best_reply(self.seat, self.room);
        let expected = archive::ReplyAnswer { refusal: judged.refusal, value: judged.value };
        assert_eq!(ours, expected, "the best value of seat {} in {:?}", self.seat, self.call);
        let reply = &memory.out[..judged.reply.len()];
        assert_eq!(reply, judged.reply, "the reply of seat {} in {:?}", self.seat, self.call);
        self.left(ours.refusal, judged.reply.len(), &memory);
        counts.count(ours.refusal);
    }

    fn nash_conv(&self, counts: &mut Counts, random: &mut Random) -> u64 {
        let Call { game, seats, d, table, .. } = &self.call;
        let mut memory = self.memory(random);
        let ours = nash_conv_units(*game, *seats, &mut memory.work, *d, table);
        let judged = self.call.nash_conv();
        let expected =
            archive::NashConvAnswer { refusal: judged.refusal, nash_conv: judged.nash_conv, units: judged.units };
        assert_eq!(ours, expected, "NashConv of {:?}", self.call);
        self.left(ours.refusal, 0, &memory);
        counts.count(ours.refusal);
        ours.nash_conv
    }

    /// A refused call leaves all of both; an accepted one the words past its share and the output past what it wrote.
    fn left(&self, refusal: u64, wrote: usize, memory: &Memory) {
        let from = if refusal == 0 { self.call.kept() } else { 0 };
        assert!(memory.words_kept(from), "the work memory from word {from} of {:?}", self.call);
        assert!(memory.bytes_kept(wrote), "the output from byte {wrote} of {:?}", self.call);
    }
}

impl Plan {
    /// The limits of D, and two numbers near the lower one.
    fn d(&self, number: usize) -> u64 {
        [1, self.game.tree.most_parts, 3, 2][number % 4]
    }

    /// A valid table, with lengths at or a little above those that are needed.
    fn some_call(&self, number: usize, random: &mut Random) -> Call {
        let (tree, d) = (self.game.tree, self.d(number));
        let mut call = Call::of(self.game.number, tree, d, table(tree, d, KINDS[number / 4 % KINDS.len()], random));
        call.words += more(random);
        call
    }

    /// All calls on each table, with rivals of every seat. Answers how many rivals each seat had.
    fn all_tables(&self, counts: &mut Counts, random: &mut Random) -> Vec<Rivals> {
        let mut rivals = vec![Rivals::default(); self.game.tree.seats];
        for number in 0..self.tables {
            // 24 tables have each kind with each D; fewer have another kind and another D in turn, the first mixed with the largest D.
            let number = if self.tables < 24 { number * 5 + 1 } else { number };
            self.one_table(self.some_call(number, random), &mut rivals, counts, random);
        }
        rivals
    }

    /// All calls on a table. NashConv, which is answered, is 0 exactly if no seat has a finer rival that is worth more than its own entries.
    fn one_table(&self, call: Call, rivals: &mut [Rivals], counts: &mut Counts, random: &mut Random) -> u64 {
        let mut asked = Asked { call, seat: 0, room: 0 };
        let worths = asked.worths(counts, random);
        let nash_conv = asked.nash_conv(counts, random);
        let mut gains = false;
        for (seat, rivals) in rivals.iter_mut().enumerate() {
            asked.seat = seat as u64;
            asked.room = self.game.tree.entries as u64 + more(random);
            asked.best_reply(counts, random);
            self.replied(&asked.call, seat, random);
            gains |= self.rivals(&asked.call, seat, worths[seat], rivals, random);
        }
        assert_eq!(nash_conv == 0, !gains, "NashConv {nash_conv} of {:?}", asked.call);
        nash_conv
    }

    /// The best value of a table, by the archive, and the reply.
    fn best(&self, call: &Call, seat: usize) -> (i64, Vec<u8>) {
        let mut memory = Memory::new(call.words, self.game.tree.entries as u64);
        let Memory { work, out, .. } = &mut memory;
        let answer = best_reply(call.game, call.seats, work, seat as u64, call.d, &call.table, out);
        assert_eq!(answer.refusal, 0, "{call:?}");
        (answer.value, memory.out)
    }

    /// A seat's worth, by the archive.
    fn worth(&self, call: &Call, table: &[u8], seat: usize) -> i64 {
        let mut memory = Memory::new(call.words, 0);
        let answer = worths(call.game, call.seats, &mut memory.work, call.d, table);
        assert_eq!(answer.refusal, 0, "{call:?}");
        answer.worths[seat]
    }

    /// The reply is worth the best value, and a seat's own entries do not matter to it.
    fn replied(&self, call: &Call, seat: usize, random: &mut Random) {
        let (value, reply) = self.best(call, seat);
        assert_eq!(self.worth(call, &reply, seat), value, "the reply's worth in {call:?}");
        let kind = random.pick(&KINDS);
        let other = rival(self.game.tree, &call.table, seat, call.d, kind, random);
        assert_eq!(self.best(&Call { table: other, ..call.clone() }, seat), (value, reply), "a rival of {call:?}");
    }

    /// No rival is worth more than the best value. Answers whether a finer one is worth more than the table is to the seat.
    fn rivals(&self, call: &Call, seat: usize, worth: i64, rivals: &mut Rivals, random: &mut Random) -> bool {
        let tree = self.game.tree;
        let Call { d, table, .. } = call;
        let (best, reply) = self.best(call, seat);
        let weighed = Weighed { plan: self, call, seat, best, sequences: Played::new(tree, *d, table).sequences(seat) };
        if *d > 1 {
            rivals.mixed += weighed.not_better(|| mixed_rival(tree, table, seat, *d, random));
            rivals.whole += 1;
        }
        rivals.pure += weighed.not_better(|| rival(tree, table, seat, *d, Kind::Pure, random));
        rivals.near += weighed.not_better(|| near(tree, &reply, seat, *d, random));
        rivals.whole += 2;
        let sequences = weighed.sequences;
        let answered = Answered { sequences, worth: i128::from(worth), best: i128::from(best), reply: &reply };
        let held = answered.held(FINER, self.whole, random);
        rivals.add_finer(&held);
        held.gains
    }

    /// Each of the numbers 1 to 9 so many times. Answers how many calls there were.
    fn all_refusals(&self, counts: &mut Counts, random: &mut Random) -> usize {
        for number in 1..=9 {
            for time in 0..self.refused {
                let asked = self.refused_with(number, time, random);
                let Asked { call, seat, room } = &asked;
                assert_eq!(call.best_reply(*seat, *room).refusal, number, "seat {seat} and {room} bytes with {call:?}");
                asked.held(counts, random);
            }
        }
        9 * self.refused
    }

    /// A call that is refused with a number, and may have reason to be refused with later ones.
    fn refused_with(&self, number: u64, time: usize, random: &mut Random) -> Asked {
        let room = self.game.tree.entries as u64 + more(random);
        let call = self.some_call(time, random);
        let mut asked = Asked { call, seat: random.below(self.game.tree.seats) as u64, room };
        for later in ((number + 1).max(4)..=9).rev() {
            if random.below(4) == 0 {
                self.damage(&mut asked, later, random);
            }
        }
        self.damage(&mut asked, number, random);
        asked
    }

    /// Makes the call one that a check refuses.
    fn damage(&self, asked: &mut Asked, number: u64, random: &mut Random) {
        let Asked { call, seat, room } = asked;
        match number {
            1..=4 => self.game.damage(number, &mut call.game, &mut call.seats, &mut call.words, random),
            5 => *seat = number_but(random, |seat| seat >= self.game.tree.seats as u64),
            6 => call.d = number_but(random, |d| d == 0 || d > self.game.tree.most_parts),
            7 => call.table.resize(other_length(self.game.tree.entries, random), 0),
            8 => self.unbalance(call, random),
            _ => *room = fewer(self.game.tree.entries as u64, random),
        }
    }

    /// A part more, a part less, a part moved to another set, or a sum that a byte would take for D.
    fn unbalance(&self, call: &mut Call, random: &mut Random) {
        let sets = &self.game.tree.sets;
        let set = &sets[random.below(sets.len())];
        let Some(part) = call.table.get_mut(set.first..set.first + set.actions) else { return };
        let place = random.below(part.len());
        match random.below(3) {
            0 => part[place] = part[place].wrapping_add(1),
            1 => part[place] = part[place].wrapping_sub(1),
            _ => {
                part.fill(0);
                part[place] = 255;
                part[(place + 1) % set.actions] = (call.d as u8).wrapping_add(1);
            }
        }
    }

    /// The most stack that a call takes.
    fn stack(&self) -> usize {
        let call = self.some_call(1, &mut Random::new(1));
        let mut memory = Memory::new(call.words, self.game.tree.entries as u64);
        let Memory { work, out, .. } = &mut memory;
        let Call { game, seats, d, table, .. } = &call;
        let of_worths = stack_of(|| _ = worths(*game, *seats, work, *d, table));
        let of_reply = stack_of(|| _ = best_reply(*game, *seats, work, 0, *d, table, out));
        let of_nash_conv = stack_of(|| _ = nash_conv_units(*game, *seats, work, *d, table));
        of_worths.max(of_reply).max(of_nash_conv)
    }
}

/// A seat of a table, with its best value, and with the ends by its own moves to weigh its rivals by.
struct Weighed<'a> {
    plan: &'a Plan,
    call: &'a Call,
    seat: usize,
    best: i64,
    sequences: Sequences<'a>,
}

impl Weighed<'_> {
    /// Weighs as many rivals of a kind as are planned, and answers how many. The first is weighed whole too, by the reference and by the archive.
    fn not_better(&self, mut rival: impl FnMut() -> Vec<u8>) -> usize {
        let Weighed { plan, call, seat, best, sequences } = self;
        for number in 0..plan.rivals {
            let rival = rival();
            let worth = sequences.worth(&rival);
            assert!(worth <= i128::from(*best), "{rival:?} is worth {worth} to seat {seat} in {call:?}");
            if number == 0 {
                assert_eq!(worth, Played::new(plan.game.tree, call.d, &rival).worths()[*seat], "{rival:?} in {call:?}");
                assert_eq!(worth, i128::from(plan.worth(call, &rival, *seat)), "{rival:?} in {call:?}");
            }
        }
        plan.rivals
    }
}

/// All 64 pure rivals of each seat of some tables of Kuhn 2: the best of them is the best value.
fn pure_rivals(random: &mut Random) {
    let plan = Plan { game: Game::kuhn(2), tables: 240, rivals: 0, whole: 0, refused: 0 };
    for number in 0..plan.tables {
        let call = plan.some_call(number, random);
        for seat in 0..2 {
            let worth = |pure| plan.worth(&call, &pure_rival(plan.game.tree, &call.table, seat, call.d, pure), seat);
            let best = (0..64).map(worth).max().expect("64 rivals");
            assert_eq!(plan.best(&call, seat).0, best, "the pure rivals of seat {seat} in {call:?}");
        }
    }
    println!("units, Kuhn 2: of {} tables all 64 pure rivals of each seat; the best is the best value", plan.tables);
}

/// Kuhn's equilibria of two seats: NashConv is 0, and no finer rival is worth more than a seat's own entries.
fn equilibria(counts: &mut Counts, random: &mut Random) {
    let plan = Plan { game: Game::kuhn(2), tables: 0, rivals: 6, whole: FINER, refused: 0 };
    let mut rivals = vec![Rivals::default(); 2];
    for (thirds, bets) in (1..=21).flat_map(|thirds| (0..=thirds).map(move |bets| (thirds, bets))) {
        let call = Call::of(plan.game.number, plan.game.tree, 3 * u64::from(thirds), equilibrium(thirds, bets));
        assert_eq!(plan.one_table(call, &mut rivals, counts, random), 0, "{bets} of {thirds} parts");
    }
    println!("units, Kuhn 2: NashConv of its equilibria is 0, and no rival beats one");
    rivals.iter().enumerate().for_each(|(seat, rivals)| rivals.print(seat));
}
