//! Memory to lend: what it holds before a call is known, so that what a call may not touch can be held to it.

use random::Random;

/// Work memory and output of the given lengths, filled anew before each call.
pub struct Memory {
    pub work: Vec<u64>,
    pub out: Vec<u8>,
    salt: u64,
}

impl Memory {
    pub fn new(words: u64, room: u64) -> Self {
        let mut memory = Memory { work: vec![0; words as usize], out: vec![0; room as usize], salt: 0 };
        memory.fill(0);
        memory
    }

    /// Fills all of it, so that every page is there before a call is timed.
    fn fill(&mut self, salt: u64) {
        self.salt = salt;
        for (place, word) in self.work.iter_mut().enumerate() {
            *word = held(salt, place);
        }
        for (place, byte) in self.out.iter_mut().enumerate() {
            *byte = held(salt, place) as u8;
        }
    }

    pub fn fill_at_random(&mut self, random: &mut Random) {
        let salt = random.draw();
        self.fill(salt);
    }

    /// Whether the words from a place on hold what they held.
    pub fn words_kept(&self, from: u64) -> bool {
        let mut words = self.work.iter().enumerate().skip(from as usize);
        words.all(|(place, &word)| word == held(self.salt, place))
    }

    /// Whether the output's bytes from a place on hold what they held.
    pub fn bytes_kept(&self, from: usize) -> bool {
        let mut bytes = self.out.iter().enumerate().skip(from);
        bytes.all(|(place, &byte)| byte == held(self.salt, place) as u8)
    }
}

/// What a place holds before a call.
fn held(salt: u64, place: usize) -> u64 {
    let mixed = (salt ^ place as u64).wrapping_mul(0x9E37_79B9_7F4A_7C15);
    mixed ^ (mixed >> 29)
}
