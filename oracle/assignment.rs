//! Program assignments: which objects a payload has, and how it says so.

use crate::bits::Bits;
use crate::context as c;
use crate::random::Random;

#[derive(Clone, Copy)]
pub enum Bed {
    LfeOnly,
    Standard(u32),
    Other(u32),
}

#[derive(Clone)]
pub enum Assignment {
    OnlyDynamic { lfe: bool, count: u32 },
    Mixed(Mixed),
}

#[derive(Clone)]
pub struct Mixed {
    beds: Vec<Bed>,
    isf: Option<u32>,
    dynamic: u32,
    reserved: bool,
}

const STANDARD_WIDTHS: [u32; 10] = [1, 2, 2, 2, 2, 2, 2, 1, 1, 2];
const ISF_COUNTS: [u32; 6] = [4, 8, 10, 14, 15, 30];
pub const MOST_OBJECTS: u32 = crate::tables::MOST_OBJECTS as u32;
const MOST_DYNAMIC: u32 = 159;

impl Bed {
    fn random(random: &mut Random) -> Self {
        // Two draws joined leave a quarter of the bits set, so that beds stay small.
        let assignment = random.next() as u32 & random.next() as u32;
        match random.below(3) {
            0 => Bed::LfeOnly,
            1 => Bed::Standard(assignment % 1024),
            _ => Bed::Other(assignment % 131_072),
        }
    }

    fn objects(self) -> u32 {
        match self {
            Bed::LfeOnly => 1,
            Bed::Standard(set) => (0..10)
                .map(|bit| (set >> bit & 1) * STANDARD_WIDTHS[bit])
                .sum(),
            Bed::Other(set) => set.count_ones(),
        }
    }

    fn write(self, bits: &mut Bits) {
        if bits.flag(matches!(self, Bed::LfeOnly), c::LFE_ONLY_BED_FLAG) {
            return;
        }
        bits.flag(
            matches!(self, Bed::Standard(_)),
            c::STANDARD_BED_ASSIGNMENT_FLAG,
        );
        match self {
            Bed::LfeOnly => {}
            Bed::Standard(set) => bits.put(set, 10, c::STANDARD_BED_ASSIGNMENT),
            Bed::Other(set) => bits.put(set, 17, c::NONSTANDARD_BED_ASSIGNMENT),
        }
    }
}

impl Assignment {
    pub fn random(random: &mut Random, most: u32) -> Self {
        if random.below(5) < 2 {
            return Self::random_mixed(random, most);
        }
        let count = if random.once_in(8) {
            most
        } else {
            random.between(1, most)
        };
        let lfe = random.flag();
        Assignment::OnlyDynamic { lfe, count }
    }

    /// Drawn again until it has at least one object and not too many.
    pub fn random_mixed(random: &mut Random, most: u32) -> Self {
        Self::mixed_of(random, 1, most)
    }

    /// More objects than a payload may have.
    pub fn oversized(random: &mut Random) -> Self {
        Self::mixed_of(random, MOST_OBJECTS + 1, u32::MAX)
    }

    fn mixed_of(random: &mut Random, least: u32, most: u32) -> Self {
        loop {
            let assignment = Assignment::Mixed(Mixed::random(random, most.min(MOST_DYNAMIC)));
            if (least..=most).contains(&assignment.objects()) {
                return assignment;
            }
        }
    }

    pub fn objects(&self) -> u32 {
        self.fixed_objects() + self.dynamic_objects()
    }

    /// The objects that stand before the dynamic ones.
    pub fn fixed_objects(&self) -> u32 {
        match self {
            Assignment::OnlyDynamic { lfe, .. } => u32::from(*lfe),
            Assignment::Mixed(mixed) => {
                let in_beds: u32 = mixed.beds.iter().map(|bed| bed.objects()).sum();
                in_beds + mixed.isf.map_or(0, |format| ISF_COUNTS[format as usize])
            }
        }
    }

    fn dynamic_objects(&self) -> u32 {
        match self {
            Assignment::OnlyDynamic { lfe, count } => count - u32::from(*lfe),
            Assignment::Mixed(mixed) => mixed.dynamic,
        }
    }

    /// The same kinds in other bits.
    pub fn said_otherwise(&self) -> Self {
        Assignment::Mixed(match self {
            Assignment::OnlyDynamic { lfe, .. } => Mixed {
                beds: vec![Bed::LfeOnly; usize::from(*lfe)],
                isf: None,
                dynamic: self.dynamic_objects(),
                reserved: true,
            },
            Assignment::Mixed(mixed) => Mixed {
                reserved: !mixed.reserved,
                ..mixed.clone()
            },
        })
    }

    pub fn write(&self, bits: &mut Bits, random: &mut Random) {
        match self {
            Assignment::OnlyDynamic { lfe, .. } => {
                bits.flag(true, c::DYNAMIC_ONLY_PROGRAM_FLAG);
                bits.flag(*lfe, c::LFE_PRESENT_FLAG);
            }
            Assignment::Mixed(mixed) => {
                bits.flag(false, c::DYNAMIC_ONLY_PROGRAM_FLAG);
                mixed.write(bits, random);
            }
        }
    }
}

impl Mixed {
    fn random(random: &mut Random, most_dynamic: u32) -> Self {
        let beds = random.pick(&[0, 0, 1, 2]);
        let beds = if beds < 2 { beds } else { random.between(2, 9) };
        Mixed {
            beds: (0..beds).map(|_| Bed::random(random)).collect(),
            isf: random.once_in(4).then(|| random.below(6)),
            dynamic: if random.once_in(3) {
                0
            } else {
                random.between(1, most_dynamic)
            },
            reserved: random.once_in(4),
        }
    }

    fn write(&self, bits: &mut Bits, random: &mut Random) {
        let parts = [
            !self.beds.is_empty(),
            self.isf.is_some(),
            self.dynamic > 0,
            self.reserved,
        ];
        let content = parts
            .map(u32::from)
            .iter()
            .fold(0, |all, part| all << 1 | part);
        bits.put(content, 4, c::CONTENT_DESCRIPTION);
        write_beds(&self.beds, bits, random);
        if let Some(format) = self.isf {
            bits.put(format, 3, c::INTERMEDIATE_SPATIAL_FORMAT_INDEX);
        }
        if self.dynamic > 0 {
            let contexts = [c::DYNAMIC_OBJECT_COUNT, c::EXTENDED_DYNAMIC_OBJECT_COUNT];
            put_count(bits, self.dynamic, contexts);
        }
        if self.reserved {
            let contexts = [c::RESERVED_DATA_SIZE, c::PROGRAM_ASSIGNMENT_RESERVED_DATA];
            write_bytes(bits, random, contexts);
        }
    }
}

fn write_beds(beds: &[Bed], bits: &mut Bits, random: &mut Random) {
    if beds.is_empty() {
        return;
    }
    bits.flag(random.flag(), c::BED_CHANNEL_DISTRIBUTION_FLAG);
    if bits.flag(beds.len() > 1, c::MULTIPLE_BED_INSTANCES_FLAG) {
        bits.put(beds.len() as u32 - 2, 3, c::BED_INSTANCE_COUNT);
    }
    for bed in beds {
        bed.write(bits);
    }
}

/// A count in 5 bits, of which 31 adds 7 more; one less than the count is said.
pub fn put_count(bits: &mut Bits, count: u32, [context, extended]: [u8; 2]) {
    bits.put((count - 1).min(31), 5, context);
    if count > 31 {
        bits.put(count - 32, 7, extended);
    }
}

/// A count of bytes, and as many free bytes.
pub fn write_bytes(bits: &mut Bits, random: &mut Random, [size, data]: [u8; 2]) {
    let bytes = if random.once_in(8) {
        16
    } else {
        random.between(1, 3)
    };
    bits.put(bytes - 1, 4, size);
    bits.run(random, bytes as usize * 8, data);
}
