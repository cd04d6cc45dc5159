//! The sequences of the fixed list: bench cases, each reachable refusal, drawn sequences, large payloads.

use crate::aim::{aims, Aim};
use crate::answer::{Oracle, LONGEST_PAYLOAD};
use crate::assignment::{Assignment, MOST_OBJECTS};
use crate::call::Call;
use crate::generator::{Generator, Options};
use crate::journal::Record;
use crate::payload::{Payload, Purpose};
use crate::random::Random;
use crate::tables::MOST_BLOCKS;

const DRAWN: usize = 500;

const START: Record = Record::Call(Call::Start);
const RESET: Record = Record::Call(Call::Reset);
const GAP: Record = Record::Call(Call::Gap);

/// The specification's payload A.
const A: [u8; 6] = [0x01, 0x04, 0x48, 0x00, 0x06, 0x00];

/// Bench cases of the specification: bytes that a fresh decoder gets, with number, context, place and
/// missing bits.
const BENCH_CASES: [(&[u8], [u32; 4]); 11] = [
    (&[], [1, 1, 0, 2]),
    (&[0x40], [4, 1, 0, 0]),
    (&[0x01, 0x00], [2, 18, 16, 0]),
    (&A, [0, 0, 0, 0]),
    (&[0x01, 0x04, 0x48, 0x00, 0x06], [1, 11, 23, 7]),
    (&[0x01, 0x04, 0x48, 0x00, 0x06, 0x01], [2, 17, 47, 0]),
    (&[0x01, 0x04, 0x48, 0x00, 0x06, 0x02], [2, 16, 46, 0]),
    // The two that are not proved: Truncated at position X, Invalid reserved data.
    (&[0x01, 0x04, 0x48, 0x00, 0x04, 0x00], [1, 63, 47, 6]),
    (&[0x01, 0x04, 0x48, 0x00, 0x02, 0x00], [2, 46, 38, 0]),
    // 128 objects pass the count rule, and the payload ends in a flag behind it; 129 do not.
    (&[0x3f, 0x82], [1, 5, 16, 1]),
    (&[0x3f, 0x84], [3, 3, 2, 0]),
];

/// Each sequence begins with a programme start, or with a reset.
pub fn sequences(seed: u64) -> Vec<Vec<Record>> {
    let mut random = Random::new(seed);
    let mut all = bench_cases();
    all.extend(aimed(&mut random));
    all.extend(drawn(&mut random));
    all.extend(large(&mut random));
    all.push(lengths(&mut random));
    all
}

/// Alone; after a gap notice and A, as in the journal of the specification; and after a reset and A.
fn bench_cases() -> Vec<Vec<Record>> {
    let mut all = Vec::new();
    for (payload, said) in BENCH_CASES {
        let found = match Oracle::default().decode(payload) {
            Ok(_) => [0; 4],
            Err(refusal) => [
                u32::from(refusal.number),
                u32::from(refusal.context),
                refusal.place as u32,
                refusal.missing as u32,
            ],
        };
        assert_eq!(found, said, "the oracle answers as the specification says");
        let case = Record::Payload(payload.to_vec());
        let a = Record::Payload(A.to_vec());
        all.push(vec![START, case.clone()]);
        all.push(vec![START, GAP, a.clone(), case.clone(), a.clone()]);
        all.push(vec![RESET, a.clone(), case, a]);
    }
    all
}

/// Each aimed payload between two valid ones of the same kinds, sometimes with a warning before it.
fn aimed(random: &mut Random) -> Vec<Vec<Record>> {
    let aims = aims();
    let sequence = |aim: &Aim| {
        let assignment = Assignment::random(random, 3);
        let valid = |random: &mut Random| drawn_payload(random, &assignment);
        let mut records = vec![START, valid(random)];
        if random.flag() {
            records.push(Record::Call(random.pick(&[Call::Gap, Call::Reset])));
        }
        records.push(Record::Payload(aim.payload(random)));
        records.push(valid(random));
        records
    };
    aims.iter().map(sequence).collect()
}

fn drawn_payload(random: &mut Random, assignment: &Assignment) -> Record {
    let payload = Payload::random(random, assignment, Purpose::Short);
    Record::Payload(payload.assembled().into_bytes())
}

/// Sequences with gap notices and resets; now and then a further programme start within.
fn drawn(random: &mut Random) -> Vec<Vec<Record>> {
    let options = Options {
        warnings: true,
        short: true,
    };
    let mut generator = Generator::new(random.next(), options);
    let mut sequence = || {
        let mut records = generator.next_sequence();
        if random.once_in(6) {
            let middle = 1 + random.index(records.len());
            records.insert(middle, START);
        }
        records
    };
    (0..DRAWN).map(|_| sequence()).collect()
}

/// 128 objects in 8 blocks, dynamic ones alone and mixed; the second payload comes after a gap.
fn large(random: &mut Random) -> Vec<Vec<Record>> {
    let most = |lfe: bool| Assignment::OnlyDynamic {
        lfe,
        count: MOST_OBJECTS,
    };
    let mixed = loop {
        let assignment = Assignment::random_mixed(random, MOST_OBJECTS);
        if assignment.objects() == MOST_OBJECTS && assignment.fixed_objects() > 20 {
            break assignment;
        }
    };
    let sequence = |assignment: Assignment| {
        let mut payload = || large_payload(random, &assignment);
        vec![START, payload(), GAP, payload()]
    };
    [most(false), most(true), mixed].map(sequence).into()
}

fn large_payload(random: &mut Random, assignment: &Assignment) -> Record {
    loop {
        let record = drawn_payload(random, assignment);
        let Record::Payload(payload) = &record else {
            continue;
        };
        let frame = Oracle::default().decode(payload);
        if frame.is_ok_and(|frame| frame.timings.len() == MOST_BLOCKS) {
            return record;
        }
    }
}

/// The longest payload that is read, and the shortest that is not: A with zeros behind it.
fn lengths(random: &mut Random) -> Vec<Record> {
    let padded = |length: usize| {
        let mut payload = A.to_vec();
        payload.resize(length, 0);
        Record::Payload(payload)
    };
    let assignment = Assignment::random(random, 2);
    let valid = drawn_payload(random, &assignment);
    vec![
        START,
        valid,
        padded(LONGEST_PAYLOAD + 1),
        padded(LONGEST_PAYLOAD),
    ]
}
