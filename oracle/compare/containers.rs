//! The call on containers, against a reader that was written apart from the definitions.

use crate::container_seen::ContainersSeen;
use crate::difference::{number, Difference};
use crate::proved_container::emdf;
use oracle::answer::LONGEST_PAYLOAD;
use oracle::container::Reader;
use oracle::container_cases::Drawn;
use oracle::container_cuts;
use oracle::container_mistakes::Mistake;
use oracle::random::Random;

/// Fewer bytes than this are lent beyond what is needed.
const SPARE: usize = 20;
/// Bytes that stand behind what is lent, at least.
const BEHIND: usize = 4;

/// What is expected wrongly, once.
#[derive(Clone, Copy, Debug, PartialEq, Eq)]
pub enum Spoil {
    AcceptedNumber,
    AcceptedLength,
    FirstCopied,
    LastCopied,
    BehindCopy,
    LastLent,
    BehindLent,
    RefusedNumber,
    RefusedLength,
    RefusedFirst,
    RefusedLast,
    RefusedBehindLent,
}

pub const SPOILS: [Spoil; 12] = [
    Spoil::AcceptedNumber,
    Spoil::AcceptedLength,
    Spoil::FirstCopied,
    Spoil::LastCopied,
    Spoil::BehindCopy,
    Spoil::LastLent,
    Spoil::BehindLent,
    Spoil::RefusedNumber,
    Spoil::RefusedLength,
    Spoil::RefusedFirst,
    Spoil::RefusedLast,
    Spoil::RefusedBehindLent,
];

pub struct Containers {
    random: Random,
    pub seen: ContainersSeen,
    /// Of the reader that is compared with.
    pub mistake: Option<Mistake>,
    pub spoil: Option<Spoil>,
}

/// A difference, and the container.
type Found = Result<(), (Difference, Vec<u8>)>;

impl Containers {
    pub fn new(seed: u64) -> Self {
        Containers {
            random: Random::new(seed),
            seen: ContainersSeen::default(),
            mistake: None,
            spoil: None,
        }
    }

    /// The containers that are cut at every byte. Answers how many that makes.
    pub fn cuts(&mut self) -> Result<u64, (Difference, Vec<u8>)> {
        let mut count = 0;
        for whole in container_cuts::all() {
            for length in 0..=whole.len() {
                self.cut(&whole[..length])?;
                count += 1;
            }
        }
        Ok(count)
    }

    /// One container that is drawn.
    pub fn case(&mut self) -> Found {
        let drawn = Drawn::new(&mut self.random);
        let room = if self.random.once_in(12) {
            let fewer = self.random.index(LONGEST_PAYLOAD);
            self.random
                .pick(&[0, 1, LONGEST_PAYLOAD - 1, LONGEST_PAYLOAD - 1, fewer])
        } else {
            self.drawn_room()
        };
        let container = drawn.container();
        let mut reader = Reader::new(container, self.mistake);
        let answer = reader.object_payload(room);
        self.seen.count(container, &answer, &reader.met);
        self.compare(container, room, answer)
    }

    fn cut(&mut self, container: &[u8]) -> Found {
        let room = self.drawn_room();
        let mut reader = Reader::new(container, self.mistake);
        let answer = reader.object_payload(room);
        self.seen.cut(&reader.met);
        self.compare(container, room, answer)
    }

    /// Enough, and mostly a little more.
    fn drawn_room(&mut self) -> usize {
        let spare = self.random.index(SPARE);
        LONGEST_PAYLOAD + self.random.pick(&[0, 0, spare])
    }

    /// The call, on so many bytes of a buffer of any content.
    fn compare(&mut self, container: &[u8], room: usize, answer: Result<Vec<u8>, u32>) -> Found {
        let before = self.drawn_bytes(room.max(1) + BEHIND);
        let mut found = before.clone();
        let (number, length) = emdf(container, &mut found[..room]);
        let mut expected = Expected::new(answer, before, room);
        if let Some(spoil) = self.spoil.take_if(|spoil| expected.has(*spoil)) {
            expected.plant(spoil);
        }
        expected
            .compare(number, length, &found)
            .map_err(|difference| (difference, container.to_vec()))
    }

    /// Eight are drawn at once.
    fn drawn_bytes(&mut self, least: usize) -> Vec<u8> {
        let words = (0..least.div_ceil(8)).map(|_| self.random.next());
        words.flat_map(u64::to_le_bytes).collect()
    }
}

/// What the call has to leave. A wrong reader may copy more than is lent; then the number is wrong already.
struct Expected {
    number: u32,
    length: u32,
    buffer: Vec<u8>,
    room: usize,
}

impl Expected {
    fn new(answer: Result<Vec<u8>, u32>, mut buffer: Vec<u8>, room: usize) -> Self {
        let (number, payload) = match answer {
            Ok(payload) => (0, payload),
            Err(refusal) => (refusal, Vec::new()),
        };
        if let Some(front) = buffer.get_mut(..payload.len()) {
            front.copy_from_slice(&payload);
        }
        Expected {
            number,
            length: payload.len() as u32,
            buffer,
            room,
        }
    }

    fn compare(&self, given: u32, length: u32, found: &[u8]) -> Result<(), Difference> {
        number("container number", self.number, given)?;
        number("container length", self.length, length)?;
        if self.buffer == found {
            return Ok(());
        }
        let mut pairs = self.buffer.iter().zip(found);
        let at = pairs
            .position(|(expected, found)| expected != found)
            .expect("equal lengths");
        number(&self.part(at), self.buffer[at], found[at])
    }

    /// What the byte at an index is.
    fn part(&self, at: usize) -> String {
        let length = self.length as usize;
        if self.number != 0 {
            return format!("buffer byte {at} after a refusal");
        }
        if at < length {
            return format!("copied byte {at} of {length}");
        }
        format!("buffer byte {at} behind a copy of {length}")
    }

    /// Whether there is such a thing to be expected wrongly.
    fn has(&self, spoil: Spoil) -> bool {
        let accepted = self.number == 0;
        match spoil {
            Spoil::AcceptedNumber | Spoil::AcceptedLength | Spoil::BehindLent => accepted,
            Spoil::FirstCopied | Spoil::LastCopied => accepted && self.length > 1,
            Spoil::BehindCopy | Spoil::LastLent => accepted && (self.length as usize) < self.room,
            Spoil::RefusedFirst | Spoil::RefusedLast => !accepted && self.room > 0,
            Spoil::RefusedNumber | Spoil::RefusedLength | Spoil::RefusedBehindLent => !accepted,
        }
    }

    fn plant(&mut self, spoil: Spoil) {
        let length = self.length as usize;
        match spoil {
            Spoil::AcceptedNumber | Spoil::RefusedNumber => self.number ^= 1,
            Spoil::AcceptedLength | Spoil::RefusedLength => self.length ^= 1,
            Spoil::FirstCopied | Spoil::RefusedFirst => self.buffer[0] ^= 1,
            Spoil::LastCopied => self.buffer[length - 1] ^= 1,
            Spoil::BehindCopy => self.buffer[length] ^= 1,
            Spoil::LastLent | Spoil::RefusedLast => self.buffer[self.room - 1] ^= 1,
            Spoil::BehindLent | Spoil::RefusedBehindLent => self.buffer[self.room] ^= 1,
        }
    }
}
