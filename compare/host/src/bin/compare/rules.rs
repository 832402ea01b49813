//! The rules calls and saved-position checks: random hands of both games, with litter in the places past the lengths. At each position every
//! call is made with numbers that fit and that do not, and again at a position that was damaged.

use crate::number::some_number;
use crate::Counts;
use chukkanalli::{KuhnPosition, LeducPosition};
use host::rules::{Calls, Kuhn, Leduc};
use judge::answer;
use judge::calls::{validate, Asked, Judged};
use judge::leduc::HALF;
use judge::line::{untouched, ROOM};
use judge::{kuhn, leduc};
use random::Random;
use reinfors_games::kuhn::KuhnPoker;
use reinfors_games::leduc::LeducPoker;
use std::fmt::Debug;

pub fn compare(hands: u64, random: &mut Random) {
    let mut counts = Counts::new();
    for _ in 0..hands {
        let seats = 2 + random.below(9);
        Family { ours: &Kuhn(seats as u64), game: &KuhnPoker { players: seats }, counts: &mut counts }.hand(random);
        let seats = some_number(random);
        let game = &KuhnPoker { players: seats as usize };
        Family { ours: &Kuhn(seats), game, counts: &mut counts }.position(random);
    }
    println!("Kuhn: {hands} hands and as many seat counts agree");
    counts.print();
    let mut counts = Counts::new();
    for _ in 0..hands {
        Family { ours: &Leduc, game: &LeducPoker, counts: &mut counts }.hand(random);
    }
    println!("Leduc: {hands} hands agree");
    counts.print();
}

/// A position that can be written to at random.
trait Position: Copy + Debug {
    type Judged;

    /// The judge's position, in which no byte is lost.
    fn judged(self) -> Self::Judged;

    /// Any byte into every place of the arrays.
    fn litter(&mut self, random: &mut Random);

    /// One byte or one length changed, or one action more.
    fn damage(&mut self, random: &mut Random);
}

impl Position for KuhnPosition {
    type Judged = kuhn::Position;

    fn judged(self) -> kuhn::Position {
        kuhn::Position { cards: self.cards, dealt: self.dealt, history: self.history, acted: self.acted }
    }

    fn litter(&mut self, random: &mut Random) {
        self.cards.iter_mut().chain(&mut self.history).for_each(|byte| *byte = random.draw() as u8);
    }

    fn damage(&mut self, random: &mut Random) {
        match random.below(5) {
            0 => self.cards[random.below(self.cards.len())] = some_byte(random),
            1 => self.history[random.below(self.history.len())] = some_byte(random),
            2 => self.dealt = some_number(random),
            3 => self.acted = some_number(random),
            _ => append(&mut self.history, &mut self.acted, random),
        }
    }
}

impl Position for LeducPosition {
    type Judged = leduc::Position;

    fn judged(self) -> leduc::Position {
        leduc::Position {
            cards: self.cards,
            dealt: self.dealt,
            public: self.public(),
            history: self.history,
            acted: [self.acted1, self.acted2],
        }
    }

    fn litter(&mut self, random: &mut Random) {
        self.cards.iter_mut().chain(&mut self.history).for_each(|byte| *byte = random.draw() as u8);
    }

    fn damage(&mut self, random: &mut Random) {
        let round = random.below(2);
        let acted = [&mut self.acted1, &mut self.acted2];
        match random.below(6) {
            0 => self.cards[random.below(self.cards.len())] = some_byte(random),
            1 => self.history[random.below(self.history.len())] = some_byte(random),
            2 => self.dealt = some_number(random),
            3 => self.public_card = some_byte(random),
            4 => *acted[round] = some_number(random),
            _ => append(&mut self.history[round * HALF..][..HALF], acted[round], random),
        }
    }
}

/// One action more, legal or not.
fn append(history: &mut [u8], acted: &mut u64, random: &mut Random) {
    if let Some(place) = history.get_mut(*acted as usize) {
        *place = random.below(4) as u8;
    }
    *acted += 1;
}

/// Any byte once in three, else a small one.
fn some_byte(random: &mut Random) -> u8 {
    let below = random.pick(&[3, 7, 256]);
    random.below(below) as u8
}

/// All calls of a game, of the archive and of the judge.
struct Family<'a, C, G> {
    ours: &'a C,
    game: &'a G,
    counts: &'a mut Counts,
}

impl<C, G> Family<'_, C, G>
where
    C: Calls<Position: Position<Judged = G::Position>>,
    G: Judged,
{
    /// The answers of both on one hand, from the start to its end.
    fn hand(&mut self, random: &mut Random) {
        let mut at = self.start();
        at.litter(random);
        loop {
            let next = self.all(at, random);
            let mut damaged = at;
            damaged.damage(random);
            self.all(damaged, random);
            if next.is_empty() {
                return;
            }
            at = random.pick(&next);
        }
    }

    /// The answers of both on one position with litter in it, whatever the game.
    fn position(&mut self, random: &mut Random) {
        let mut at = self.start();
        at.damage(random);
        self.all(at, random);
    }

    fn start(&mut self) -> C::Position {
        let (ours, rust) = (self.ours.start(), self.game.start());
        assert_eq!((ours.refusal, ours.position.judged()), (rust.refusal, rust.position), "start");
        assert_eq!(self.ours.validate(), rust.refusal, "validate");
        self.counts.count(rust.refusal);
        ours.position
    }

    /// Every call on a position; the positions that its moves lead to.
    fn all(&mut self, at: C::Position, random: &mut Random) -> Vec<C::Position> {
        let asked = Asked::new(self.game, at.judged());
        let [mut seats, mut outcomes, mut actions] = self.game.tries();
        for tried in [&mut seats, &mut outcomes, &mut actions] {
            tried.push(some_number(random));
        }
        for &seat in &seats {
            let room = random.below(ROOM + 1);
            let mut out = untouched();
            let ours = self.ours.legal(at, seat, &mut out[..room]);
            let rust = asked.legal(seat, room as u64);
            self.written((ours.refusal, ours.position, ours.count, out), rust, at, &format!("legal list of {seat}"));
            let mut out = untouched();
            let ours = self.ours.key(at, seat, &mut out[..room]);
            self.written(
                (ours.refusal, ours.position, ours.count, out),
                asked.key(seat, room as u64),
                at,
                &format!("key of {seat}"),
            );
        }
        let mut next = Vec::new();
        for outcome in outcomes {
            let ours = self.ours.deal(at, outcome);
            next.extend(self.moved((ours.refusal, ours.position), asked.deal(outcome), at, &format!("deal {outcome}")));
        }
        for action in actions {
            let ours = self.ours.step(at, action);
            next.extend(self.moved((ours.refusal, ours.position), asked.step(action), at, &format!("step {action}")));
        }
        self.payoff(&asked, at);
        for done in [0, 1, 2, some_number(random)] {
            let ours = self.ours.saved(at, done);
            let rust = answer::Moved { refusal: validate(self.game, &at.judged(), done), position: at.judged() };
            self.moved((ours.refusal, ours.position), rust, at, &format!("saved with {done}"));
        }
        next
    }

    fn moved(
        &mut self,
        ours: (u64, C::Position),
        rust: answer::Moved<G::Position>,
        at: C::Position,
        call: &str,
    ) -> Option<C::Position> {
        assert_eq!((ours.0, ours.1.judged()), (rust.refusal, rust.position), "{call} at {at:?}");
        self.counts.count(rust.refusal);
        (rust.refusal == 0).then_some(ours.1)
    }

    fn written(
        &mut self,
        (refusal, position, count, out): (u64, C::Position, u64, [u8; ROOM]),
        rust: answer::Written,
        at: C::Position,
        call: &str,
    ) {
        assert_eq!((refusal, count, out), (rust.refusal, rust.count, rust.out), "{call} at {at:?}");
        assert_eq!(position.judged(), at.judged(), "the position after {call} at {at:?}");
        self.counts.count(rust.refusal);
    }

    fn payoff(&mut self, asked: &Asked<G>, at: C::Position) {
        let (ours, rust) = (self.ours.payoff(at), asked.payoff());
        let answers = ((ours.refusal, ours.count, ours.payoffs), (rust.refusal, rust.count, rust.payoffs));
        assert_eq!(answers.0, answers.1, "payoff at {at:?}");
        assert_eq!(ours.position.judged(), at.judged(), "the position after the payoff at {at:?}");
        self.counts.count(rust.refusal);
    }
}
