//! One line of answers: their text where it is asked for, and a checksum of every field.

/// How many bytes the output array has; a call is lent the first of them.
pub const ROOM: usize = 32;

/// What a place of lent memory holds before a call; a byte holds the lowest byte of it.
fn held(place: u64) -> u64 {
    200 + place
}

/// What the output array holds before a call.
pub fn untouched() -> [u8; ROOM] {
    std::array::from_fn(|place| held(place as u64) as u8)
}

pub struct Line {
    shown: bool,
    text: String,
    sum: u32,
}

impl Line {
    pub fn new(shown: bool) -> Self {
        Line { shown, text: String::new(), sum: 1 }
    }

    /// A byte of an answer, into the checksum.
    pub fn byte(&mut self, byte: u8) {
        self.sum = self.sum.wrapping_mul(31).wrapping_add(u32::from(byte));
    }

    pub fn bytes(&mut self, bytes: &[u8]) {
        bytes.iter().for_each(|&b| self.byte(b));
    }

    /// A number of an answer, its lowest byte first, into the checksum.
    pub fn number(&mut self, number: u64) {
        self.bytes(&number.to_le_bytes());
    }

    /// The words of work memory that a call left, from a place on.
    pub fn words_left(&mut self, from: u64, words: u64) {
        (from..words).for_each(|place| self.number(held(place)));
    }

    /// The bytes of output that a call left, from a place on.
    pub fn bytes_left(&mut self, from: usize, room: u64) {
        (from as u64..room).for_each(|place| self.byte(held(place) as u8));
    }

    /// A payoff, as one byte: 128 more than it is.
    pub fn payoff(&mut self, payoff: i64) {
        assert!(-128 < payoff && payoff < 128, "payoffs are small");
        self.byte((payoff + 128) as u8);
    }

    /// A word of the text.
    pub fn say<T: ToString>(&mut self, word: T) {
        if self.shown {
            if !self.text.is_empty() {
                self.text.push(' ');
            }
            self.text += &word.to_string();
        }
    }

    pub fn say_all(&mut self, bytes: &[u8]) {
        bytes.iter().for_each(|&b| self.say(b));
    }

    /// The text, if any, and the checksum.
    pub fn end(mut self) -> String {
        self.shown = true;
        let sum = self.sum;
        self.say(sum);
        self.text
    }
}
