//! What was seen, printed at the end; and whether that was enough.

use crate::seen::Seen;
use oracle::aim::reachable;
use oracle::answer::TRUNCATED;
use oracle::context;
use oracle::listener::{Expected, Said};
use oracle::orders::{Order, Position};
use oracle::tables::{ALL_SETTLED, INFINITY, MARK, ROW_WIDTH};
use std::collections::BTreeMap;

/// The least share of accepted payloads, in percent.
const LEAST_ACCEPTED: u64 = 40;

const DISTANCES: usize = INFINITY as usize + 1;
const MARKS: usize = ALL_SETTLED as usize + 1;

#[derive(Default)]
pub struct Tally {
    pub payloads: u64,
    pub accepted: u64,
    refused: BTreeMap<(u32, u32), u64>,
    truncated: u64,
    one_bit_missing: u64,
    most_missing: u32,
    gain_codes: [u64; 4],
    basic_statuses: [u64; 4],
    render_statuses: [u64; 4],
    /// Positions by their distance.
    absolute: [u64; DISTANCES],
    differential: [u64; DISTANCES],
    start_rows: u64,
    block_rows: u64,
    unsettled_start_rows: u64,
    unsettled_block_rows: u64,
    /// Block rows by their mark.
    marks: [u64; MARKS],
    unsettled_frames: u64,
    kinds_changed: u64,
    pub seen: Seen,
    pub differences: u64,
}

impl Tally {
    pub fn count(&mut self, expected: &Expected) {
        self.payloads += 1;
        let said = expected.said;
        if said.number != 0 {
            self.count_refusal(&said);
            return;
        }
        self.accepted += 1;
        self.kinds_changed += u64::from(expected.kinds_changed);
        self.unsettled_frames += u64::from(said.unsettled > 0);
        self.start_rows += u64::from(said.objects);
        self.block_rows += u64::from(said.objects * said.blocks);
        self.unsettled_start_rows += unsettled(&expected.start);
        self.unsettled_block_rows += unsettled(&expected.blocks);
        for mark in marks(&expected.blocks) {
            self.marks[mark as usize] += 1;
        }
        for order in &expected.orders {
            self.count_order(order);
        }
    }

    fn count_refusal(&mut self, said: &Said) {
        *self.refused.entry((said.number, said.context)).or_default() += 1;
        self.truncated += u64::from(said.number == u32::from(TRUNCATED));
        self.one_bit_missing += u64::from(said.missing == 1);
        self.most_missing = self.most_missing.max(said.missing);
    }

    fn count_order(&mut self, order: &Order) {
        let add = |counts: &mut [u64; 4], code: Option<u32>| {
            if let Some(code) = code {
                counts[code as usize] += 1;
            }
        };
        add(&mut self.gain_codes, order.gain_code);
        add(&mut self.basic_statuses, order.basic_status);
        add(&mut self.render_statuses, order.render_status);
        let counts = match order.position {
            Some(Position::Absolute) => &mut self.absolute,
            Some(Position::Differential) => &mut self.differential,
            None => return,
        };
        let distance = order.distance.expect("a distance follows each position");
        counts[distance.number() as usize] += 1;
    }

    fn print_refusals(&self) {
        for (&(number, context), times) in &self.refused {
            let text = if context == 0 {
                "payload over the limit"
            } else {
                context::string(context as u8)
            };
            println!("{times:9} no {number} {context} {text}");
        }
        println!(
            "Truncated {}, of these with 1 bit missing {}, the most bits missing {}",
            self.truncated, self.one_bit_missing, self.most_missing
        );
    }

    fn print_orders(&self) {
        println!("gain codes 0 to 3: {:?}", self.gain_codes);
        println!(
            "basic statuses 0 to 3, past the first block: {:?}",
            self.basic_statuses
        );
        println!(
            "render statuses 0 to 3, past the first block: {:?}",
            self.render_statuses
        );
        println!(
            "positions: absolute {}, differential {}",
            self.absolute.iter().sum::<u64>(),
            self.differential.iter().sum::<u64>()
        );
        println!("distances 0 to {INFINITY}, absolute: {:?}", self.absolute);
        println!(
            "distances 0 to {INFINITY}, differential: {:?}",
            self.differential
        );
    }

    fn print_rows(&self) {
        println!(
            "start rows {}, unsettled {}; block rows {}, unsettled {}; frames that end unsettled {}",
            self.start_rows,
            self.unsettled_start_rows,
            self.block_rows,
            self.unsettled_block_rows,
            self.unsettled_frames
        );
        println!("marks 0 to {ALL_SETTLED}, block rows: {:?}", self.marks);
        let seen = self.marks.iter().filter(|times| **times > 0).count();
        println!("marks of block rows: {seen} of {MARKS} seen");
    }

    pub fn print(&self) {
        self.print_refusals();
        let share = self.accepted * 100 / self.payloads.max(1);
        println!(
            "payloads {}, accepted {} ({share} %)",
            self.payloads, self.accepted
        );
        self.print_orders();
        self.print_rows();
        println!("kinds changed {}", self.kinds_changed);
        self.seen.print();
        println!("differences {}", self.differences);
    }

    /// Why the run proves too little, or nothing.
    pub fn complaints(&self) -> Vec<String> {
        let mut complaints = Vec::new();
        if self.differences > 0 {
            complaints.push(format!("{} differences", self.differences));
        }
        if self.accepted * 100 < self.payloads * LEAST_ACCEPTED {
            complaints.push(format!("less than {LEAST_ACCEPTED} % accepted"));
        }
        let mut unseen = reachable();
        unseen.retain(|pair| !self.refused.contains_key(pair));
        if !unseen.is_empty() {
            complaints.push(format!("refusals never seen (number, context): {unseen:?}"));
        }
        let distances = self.absolute.iter().chain(&self.differential);
        if distances.copied().any(|times| times == 0) {
            complaints.push("a distance never seen, absolute or differential".to_string());
        }
        if self.marks.contains(&0) {
            complaints.push("a mark never seen in a block row".to_string());
        }
        let unseen = self.seen.unseen().into_iter();
        complaints.extend(unseen.map(|name| format!("never seen: {name}")));
        complaints
    }
}

fn marks(rows: &[i16]) -> impl Iterator<Item = i16> + '_ {
    rows.chunks(ROW_WIDTH).map(|row| row[MARK])
}

fn unsettled(rows: &[i16]) -> u64 {
    marks(rows).filter(|&mark| mark != ALL_SETTLED).count() as u64
}
