//! Answers of the calls of both games, and how a line has them.

use crate::line::{untouched, Line, ROOM};
use crate::list::List;
use crate::whole;

/// Every payoff answer has ten places.
pub const PAYOFFS: usize = 10;

/// A position as an answer carries it.
pub trait Noted {
    /// Every field, into the checksum.
    fn note(&self, line: &mut Line);

    /// What lies within the lengths, into the text.
    fn say(&self, line: &mut Line);
}

/// What a start, a deal, a step or a saved-position check answers.
pub struct Moved<P> {
    pub refusal: u64,
    pub position: P,
}

impl<P: Noted> Moved<P> {
    pub fn note(&self, line: &mut Line, call: &str, list: &mut List) {
        self.note_all(line, list);
        line.say(call);
        line.say(self.refusal);
        if self.refusal == 0 {
            self.position.say(line);
        }
    }

    /// The answer of a saved-position check with this mark: the text has its number for the marks 0 and 1.
    pub fn note_mark(&self, line: &mut Line, done: u64, list: &mut List) {
        self.note_all(line, list);
        if done < 2 {
            line.say(self.refusal);
        }
    }

    fn note_all(&self, line: &mut Line, list: &mut List) {
        list.count(self.refusal);
        line.number(self.refusal);
        self.position.note(line);
    }
}

/// What a legal list or a key answers, with all of the output array after the call.
pub struct Written {
    pub refusal: u64,
    pub count: u64,
    pub out: [u8; ROOM],
}

/// The answer's bytes, written if the room lent holds them.
pub fn written(answer: Result<Vec<u8>, u64>, room: u64) -> Written {
    let refused = |refusal| Written { refusal, count: 0, out: untouched() };
    match answer {
        Err(refusal) => refused(refusal),
        Ok(bytes) if room < bytes.len() as u64 => refused(9),
        Ok(bytes) => {
            let mut out = untouched();
            out[..bytes.len()].copy_from_slice(&bytes);
            Written { refusal: 0, count: bytes.len() as u64, out }
        }
    }
}

impl Written {
    pub fn note<P: Noted>(&self, line: &mut Line, call: &str, position: &P, list: &mut List) {
        list.count(self.refusal);
        line.number(self.refusal);
        position.note(line);
        line.number(self.count);
        line.bytes(&self.out);
        line.say(call);
        line.say(self.refusal);
        if self.refusal == 0 {
            line.say(self.count);
            line.say_all(&self.out[..self.count as usize]);
        }
    }
}

/// What a payoff answers.
pub struct Payoffs {
    pub refusal: u64,
    pub count: u64,
    pub payoffs: [i64; PAYOFFS],
}

impl Payoffs {
    pub fn refused(refusal: u64) -> Self {
        Payoffs { refusal, count: 0, payoffs: [0; PAYOFFS] }
    }

    /// The events of the step that ended the hand.
    pub fn of(events: &[Option<f64>]) -> Self {
        let mut answer = Payoffs { count: events.len() as u64, ..Payoffs::refused(0) };
        for (place, event) in events.iter().enumerate() {
            answer.payoffs[place] = whole(event.expect("every seat has a payoff at an end"));
        }
        answer
    }

    pub fn note<P: Noted>(&self, line: &mut Line, position: &P, list: &mut List) {
        list.count(self.refusal);
        line.number(self.refusal);
        position.note(line);
        line.number(self.count);
        self.payoffs.iter().for_each(|&payoff| line.payoff(payoff));
        line.say("P");
        line.say(self.refusal);
        if self.refusal == 0 {
            line.say(self.count);
            self.payoffs[..self.count as usize].iter().for_each(|&payoff| line.say(payoff));
        }
    }
}
