//! Takes the object payload out of a container, bit by bit: the Rust has nothing for that.
//!
//! It follows the words of the specification alone, apart from the definitions and the proved code.

use crate::answer::LONGEST_PAYLOAD;
use crate::container_mistakes::Mistake;

pub const ROOM: u32 = 5;
pub const SIZE: u32 = 7;
pub const ENDS_EARLY: u32 = 13;
pub const VERSION: u32 = 14;
pub const NO_OBJECTS: u32 = 15;

/// In bytes, as the limit of a payload.
pub const LONGEST_CONTAINER: usize = 65_536;

/// The kinds of payloads that matter here: the end of the list, and the object payload.
pub const END: u128 = 0;
pub const OBJECTS: u128 = 11;
/// From this id on it is extended.
pub const LAST_ID: u128 = 31;

/// A further group never makes a number smaller, and none is compared with as much as this. So a number
/// that comes here may stay here.
const HUGE: u128 = 1 << 100;

/// What is read, in the order of the syntax.
pub const FIELDS: [&str; 21] = [
    "version",
    "version's extension",
    "key",
    "key's extension",
    "id",
    "id's extension",
    "sample-offset flag",
    "sample offset",
    "reserved bit",
    "duration flag",
    "duration",
    "group flag",
    "group",
    "codec-data flag",
    "codec data",
    "discard-unknown flag",
    "frame-aligned flag",
    "duplicate flags",
    "priority",
    "processing allowed",
    "size",
];
pub const OTHER_PAYLOAD: &str = "payload of another kind";
pub const OBJECT_PAYLOAD: &str = "object payload";

/// The flags of a payload's config, each where it is there.
#[derive(Clone, Copy, Debug, PartialEq, Eq)]
pub struct Config {
    pub sample_offset: bool,
    pub duration: bool,
    pub group: bool,
    pub codec_data: bool,
    pub discard: bool,
    pub aligned: Option<bool>,
    pub duplicates: Option<[bool; 2]>,
}

/// What was met on the way, so that it can be counted.
#[derive(Default)]
pub struct Met {
    pub configs: Vec<Config>,
    pub object_size: Option<u128>,
    /// The place of the copied payload, in bits.
    pub copied_from: Option<usize>,
    /// What the container's end cut.
    pub cut: Option<&'static str>,
}

/// The bytes of the first object payload, or the refusal.
pub fn object_payload(container: &[u8], buffer_length: usize) -> Result<Vec<u8>, u32> {
    Reader::new(container, None).object_payload(buffer_length)
}

pub struct Reader<'a> {
    container: &'a [u8],
    /// In bits.
    place: usize,
    mistake: Option<Mistake>,
    /// What the number in groups has come to that is read, or was read last.
    reached: u128,
    pub met: Met,
}

impl<'a> Reader<'a> {
    pub fn new(container: &'a [u8], mistake: Option<Mistake>) -> Self {
        Reader {
            container,
            place: 0,
            mistake,
            reached: 0,
            met: Met::default(),
        }
    }

    pub fn object_payload(&mut self, buffer_length: usize) -> Result<Vec<u8>, u32> {
        self.lent(buffer_length)?;
        self.head()?;
        self.payloads()
    }

    fn lent(&self, buffer_length: usize) -> Result<(), u32> {
        let needed = self.off_by_one(LONGEST_PAYLOAD, Mistake::RoomOneLess, Mistake::RoomOneMore);
        let longest = self.off_by_one(
            LONGEST_CONTAINER,
            Mistake::ContainerOneLess,
            Mistake::ContainerOneMore,
        );
        let too_long = self.container.len() > longest;
        if too_long && self.has(Mistake::RoomAfterContainer) {
            return Err(SIZE);
        }
        if buffer_length < needed {
            return Err(ROOM);
        }
        if too_long {
            return Err(SIZE);
        }
        Ok(())
    }

    fn head(&mut self) -> Result<(), u32> {
        let version = self.bits(2, "version")?;
        if version == 3 && !self.has(Mistake::VersionNotExtended) {
            self.variable(2, "version's extension")?;
        }
        if version != 0 && !self.has(Mistake::VersionAfterKey) {
            return Err(VERSION);
        }
        let key = self.bits(3, "key")?;
        if key == 7 && !self.has(Mistake::KeyNotExtended) {
            self.variable(3, "key's extension")?;
        }
        if version != 0 {
            return Err(VERSION);
        }
        Ok(())
    }

    /// From one payload to the next, up to the first object payload.
    fn payloads(&mut self) -> Result<Vec<u8>, u32> {
        loop {
            let id = self.id()?;
            if id == END {
                return Err(NO_OBJECTS);
            }
            let config = self.config()?;
            self.met.configs.push(config);
            let is_object = id == OBJECTS || self.has(Mistake::FirstOfAnyKind);
            let size = self.size(is_object)?;
            if !is_object || size == 0 && self.has(Mistake::EmptyPassedOver) {
                self.skip(size)?;
                continue;
            }
            let payload = self.copied(size)?;
            if self.has(Mistake::LastObjectPayload) {
                return self.payloads().or(Ok(payload));
            }
            return Ok(payload);
        }
    }

    fn id(&mut self) -> Result<u128, u32> {
        let id = match self.bits(5, "id") {
            Err(_) if self.has(Mistake::EndWithoutAnId) => END,
            id => id?,
        };
        if id < LAST_ID || self.has(Mistake::IdNotExtended) {
            return Ok(id);
        }
        let extension = self.variable(5, "id's extension")?;
        match self.mistake {
            Some(Mistake::ExtensionIsTheId) => Ok(extension),
            Some(Mistake::IdOfFiveBits) => Ok((id + extension) % 32),
            Some(Mistake::IdOfEightBits) => Ok((id + extension) % 256),
            _ => Ok(id + extension),
        }
    }

    fn config(&mut self) -> Result<Config, u32> {
        let sample_offset = self.flag("sample-offset flag")?;
        if sample_offset {
            self.bits(11, "sample offset")?;
            if !self.has(Mistake::ReservedBitNotRead) {
                self.bits(1, "reserved bit")?;
            }
        }
        let duration = self.flag("duration flag")?;
        if duration {
            self.variable(11, "duration")?;
        }
        let group = self.flag("group flag")?;
        if group {
            self.variable(2, "group")?;
        }
        let codec_data = self.flag("codec-data flag")?;
        if codec_data {
            self.bits(8, "codec data")?;
        }
        let discard = self.flag("discard-unknown flag")?;
        let kept = discard == self.has(Mistake::DiscardInverted);
        let (aligned, duplicates) = if kept {
            self.kept(sample_offset)?
        } else {
            (None, None)
        };
        Ok(Config {
            sample_offset,
            duration,
            group,
            codec_data,
            discard,
            aligned,
            duplicates,
        })
    }

    /// What stands there if a payload is not to be discarded: the frame-aligned flag and the duplicate flags.
    fn kept(&mut self, sample_offset: bool) -> Result<(Option<bool>, Option<[bool; 2]>), u32> {
        let mut aligned = None;
        let mut duplicates = None;
        if !sample_offset || self.has(Mistake::AlignedBesideOffset) {
            aligned = Some(self.flag("frame-aligned flag")?);
        }
        if aligned == Some(true) && !self.has(Mistake::DuplicatesNotRead) {
            let created = self.flag("duplicate flags")?;
            duplicates = Some([created, self.flag("duplicate flags")?]);
        }
        let offset_counts = sample_offset && !self.has(Mistake::PriorityNotBesideOffset);
        if offset_counts || aligned == Some(true) || self.has(Mistake::PriorityAlways) {
            self.bits(5, "priority")?;
            if !self.has(Mistake::ProcessingNotRead) {
                self.bits(2, "processing allowed")?;
            }
        }
        Ok((aligned, duplicates))
    }

    fn size(&mut self, is_object: bool) -> Result<u128, u32> {
        let size = self.variable(8, "size");
        let too_long = self.reached > LONGEST_PAYLOAD as u128;
        if too_long && size.is_err() && is_object && self.has(Mistake::SizeInItsGroups) {
            return Err(SIZE);
        }
        if too_long && size.is_ok() && !is_object && self.has(Mistake::OthersLimited) {
            return Err(SIZE);
        }
        size
    }

    fn copied(&mut self, size: u128) -> Result<Vec<u8>, u32> {
        self.met.object_size = Some(size);
        let limit = self.off_by_one(
            LONGEST_PAYLOAD,
            Mistake::LimitOneLess,
            Mistake::LimitOneMore,
        );
        let too_long = size > limit as u128;
        if too_long && !self.has(Mistake::SizeAfterBytes) {
            return Err(SIZE);
        }
        self.met.copied_from = Some(self.place);
        if self.has(Mistake::CopyFromTheByte) {
            self.place -= self.place % 8;
        }
        let mut payload = Vec::new();
        for _ in 0..size {
            match self.bits(8, OBJECT_PAYLOAD) {
                Err(_) if self.has(Mistake::CopiesWhatIsThere) => break,
                byte => payload.push(byte? as u8),
            }
        }
        if too_long {
            return Err(SIZE);
        }
        Ok(payload)
    }

    /// Past so many bytes of another kind.
    fn skip(&mut self, size: u128) -> Result<(), u32> {
        let bits = match self.mistake {
            Some(Mistake::SkipWrapsAt32Bits) => size * 8 % (1 << 32),
            Some(Mistake::SkipWrapsAt64Bits) => size * 8 % (1 << 64),
            _ => size * 8,
        };
        let left = self.container.len() * 8 - self.place;
        if bits > left as u128 {
            self.met.cut = Some(OTHER_PAYLOAD);
            return Err(ENDS_EARLY);
        }
        self.place += bits as usize;
        Ok(())
    }

    /// A number in groups of a width, each followed by the flag for more.
    fn variable(&mut self, width: usize, field: &'static str) -> Result<u128, u32> {
        let added = u128::from(!self.has(Mistake::GroupWithoutOne));
        self.reached = self.bits(width, field)?;
        while self.flag(field)? && !self.has(Mistake::OneGroupAlone) {
            let group = self.bits(width, field)?;
            let value = ((self.reached + added) << width) + group;
            self.reached = match self.mistake {
                Some(Mistake::WrapsAt16Bits) => value % (1 << 16),
                Some(Mistake::WrapsAt32Bits) => value % (1 << 32),
                Some(Mistake::WrapsAt64Bits) => value % (1 << 64),
                _ => value.min(HUGE),
            };
        }
        Ok(self.reached)
    }

    fn flag(&mut self, field: &'static str) -> Result<bool, u32> {
        Ok(self.bits(1, field)? == 1)
    }

    /// So many bits as a number, the highest first.
    fn bits(&mut self, width: usize, field: &'static str) -> Result<u128, u32> {
        let mut value = 0;
        for _ in 0..width {
            let Some(byte) = self.container.get(self.place / 8) else {
                self.met.cut = Some(field);
                return Err(ENDS_EARLY);
            };
            value = value * 2 + u128::from(byte >> (7 - self.place % 8) & 1);
            self.place += 1;
        }
        Ok(value)
    }

    fn off_by_one(&self, limit: usize, less: Mistake, more: Mistake) -> usize {
        limit + usize::from(self.has(more)) - usize::from(self.has(less))
    }

    fn has(&self, mistake: Mistake) -> bool {
        self.mistake == Some(mistake)
    }
}
