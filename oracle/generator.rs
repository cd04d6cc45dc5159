//! Sequences of payloads that a seed decides: valid, damaged, and aimed at each refusal.

use crate::aim::{aims, Aim};
use crate::answer::LONGEST_PAYLOAD;
use crate::assignment::{Assignment, MOST_OBJECTS};
use crate::bits::Bits;
use crate::call::Call;
use crate::journal::Record;
use crate::payload::{Payload, Purpose};
use crate::random::Random;

#[derive(Clone, Copy, Default)]
pub struct Options {
    /// Gap notices are strewn in, and fewer resets.
    pub warnings: bool,
    /// At most 40 objects, and no payload padded to hundreds of bytes.
    pub short: bool,
}

/// A valid payload of so many objects, an Lfe first and the others Dynamic.
pub fn payload_of(random: &mut Random, objects: u32) -> Vec<u8> {
    written_of(random, objects).into_bytes()
}

/// The same, with its fields.
pub(crate) fn written_of(random: &mut Random, objects: u32) -> Bits {
    let assignment = Assignment::OnlyDynamic {
        lfe: true,
        count: objects,
    };
    Payload::random(random, &assignment, Purpose::Short).assembled()
}

pub struct Generator {
    random: Random,
    options: Options,
    assignment: Assignment,
    /// Payloads that the present sequence still has.
    left: u32,
    aims: Vec<Aim>,
    aimed: usize,
}

impl Generator {
    pub fn new(seed: u64, options: Options) -> Self {
        Generator {
            random: Random::new(seed),
            options,
            assignment: Assignment::OnlyDynamic {
                lfe: false,
                count: 1,
            },
            left: 0,
            aims: aims(),
            aimed: 0,
        }
    }

    /// The next payload. Where it begins a sequence, `starts_sequence` said so before.
    pub fn next_payload(&mut self) -> Vec<u8> {
        if self.starts_sequence() {
            self.left = self.random.between(2, 8);
            self.assignment = self.new_assignment();
        }
        self.left -= 1;
        match self.random.below(100) {
            0..=61 => self.valid(),
            62..=68 => self.cut(),
            69..=77 => self.flipped(),
            78 => self.noise(),
            _ => self.next_aimed(),
        }
    }

    pub fn starts_sequence(&self) -> bool {
        self.left == 0
    }

    /// The next payload as a record, after a programme start where a sequence begins, and perhaps a warning.
    pub fn next_records(&mut self) -> Vec<Record> {
        let mut records = Vec::new();
        if self.starts_sequence() {
            records.push(Record::Call(Call::Start));
        }
        if self.options.warnings && self.random.once_in(4) {
            let warnings = [Call::Gap, Call::Gap, Call::Gap, Call::Reset];
            records.push(Record::Call(self.random.pick(&warnings)));
        }
        records.push(Record::Payload(self.next_payload()));
        records
    }

    /// The records of a whole sequence, its programme start first.
    pub fn next_sequence(&mut self) -> Vec<Record> {
        let mut records = self.next_records();
        while !self.starts_sequence() {
            records.extend(self.next_records());
        }
        records
    }

    fn new_assignment(&mut self) -> Assignment {
        let most = match self.random.below(400) {
            0..=339 => 6,
            340..=391 => 16,
            399 if !self.options.short => MOST_OBJECTS,
            _ => 40,
        };
        Assignment::random(&mut self.random, most)
    }

    /// Mostly the assignment stays, since only then does what was retained matter.
    fn valid(&mut self) -> Vec<u8> {
        match self.random.below(16) {
            0 => self.assignment = self.new_assignment(),
            1 => self.assignment = self.assignment.said_otherwise(),
            _ => {}
        }
        let purpose = if self.options.short {
            Purpose::Short
        } else {
            Purpose::Usual
        };
        let payload = Payload::random(&mut self.random, &self.assignment, purpose);
        let mut bytes = payload.assembled().into_bytes();
        // The longest payload that is read, and the shortest that is not.
        if !self.options.short && self.random.once_in(20_000) && bytes.len() < LONGEST_PAYLOAD {
            bytes.resize(LONGEST_PAYLOAD + self.random.index(2), 0);
        }
        bytes
    }

    fn cut(&mut self) -> Vec<u8> {
        let mut bytes = self.valid();
        bytes.truncate(self.random.index(bytes.len()));
        bytes
    }

    fn flipped(&mut self) -> Vec<u8> {
        let mut bytes = self.valid();
        for _ in 0..self.random.pick(&[1, 1, 2, 3]) {
            let at = self.random.index(bytes.len());
            bytes[at] ^= 1 << self.random.below(8);
        }
        bytes
    }

    fn noise(&mut self) -> Vec<u8> {
        let length = self.random.below(12);
        (0..length).map(|_| self.random.next() as u8).collect()
    }

    /// Aims take turns, so that a thousand payloads meet each of them.
    fn next_aimed(&mut self) -> Vec<u8> {
        let aim = self.aims[self.aimed % self.aims.len()];
        self.aimed += 1;
        aim.payload(&mut self.random)
    }
}
