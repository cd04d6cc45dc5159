//! Both decoders side by side: each call goes to both, and everything is compared after it.

use crate::difference::{self, Difference};
use crate::proved::{Tables, NEEDED, RETAINED};
use crate::spoil::{Moment, Spoil};
use oracle::call::Call;
use oracle::listener::{Expected, Listener, Said};
use oracle::tables::{DOUBT, RETAINED_LENGTH};

pub struct Bench {
    pub found: Tables,
    pub expected: Tables,
    pub listener: Listener,
    /// A number to be expected wrongly, once.
    pub spoil: Option<Spoil>,
    /// Whether a gap notice or a reset came since the last programme start, or may have.
    pub warned: bool,
    calls: u16,
}

impl Bench {
    pub fn new(listener: Listener) -> Self {
        Bench {
            found: Tables::new(),
            expected: Tables::new(),
            listener,
            spoil: None,
            warned: false,
            calls: 0,
        }
    }

    /// Another sentinel at each call, and never a number that a table can hold.
    pub fn prepare(&mut self) {
        self.calls = self.calls.wrapping_add(1);
        self.found.fill(0x4000 | (self.calls & 0x3fff) as i16);
        self.expected.copy_from(&self.found);
    }

    pub fn call(&mut self, call: Call) -> Result<(), Difference> {
        self.listener.call(call);
        self.warned = call != Call::Start;
        self.prepare();
        let retained = &mut self.expected.retained[..RETAINED_LENGTH];
        if call != Call::Gap {
            retained.fill(0);
        }
        retained[DOUBT] = i16::from(call != Call::Start);
        let number = self.found.call_lent(call, self.found.retained.len());
        self.compare(Moment::Called(call), Said::default(), Said::only(number))
    }

    pub fn decode(&mut self, payload: &[u8]) -> Result<Expected, Difference> {
        let expected = self.listener.decode(payload);
        self.prepare();
        self.expect(&expected);
        let found = self.found.decode(payload);
        let moment = match expected.said.number {
            0 => Moment::Accepted,
            1..=4 => Moment::Refused,
            _ => Moment::Untouched,
        };
        self.compare(moment, expected.said, found)?;
        Ok(expected)
    }

    /// The specification's table of numbers given back: what becomes of the lent tables.
    fn expect(&mut self, expected: &Expected) {
        let tables = &mut self.expected;
        match expected.said.number {
            0 => {
                tables.start[..expected.start.len()].copy_from_slice(&expected.start);
                tables.blocks[..expected.blocks.len()].copy_from_slice(&expected.blocks);
                tables.timings[..expected.timings.len()].copy_from_slice(&expected.timings);
                tables.retained[..RETAINED_LENGTH].copy_from_slice(&self.listener.retained());
            }
            1..=4 => {
                tables.start[..NEEDED[1]].fill(0);
                tables.blocks[..NEEDED[2]].fill(0);
                tables.timings[..NEEDED[3]].fill(0);
            }
            _ => {}
        }
    }

    pub fn compare(
        &mut self,
        moment: Moment,
        mut expected: Said,
        found: Said,
    ) -> Result<(), Difference> {
        if let Some(spoil) = self.spoil.as_mut() {
            spoil.apply(moment, &mut expected, &mut self.expected);
        }
        difference::said(&expected, &found)?;
        difference::tables(&self.expected, &self.found)
    }

    /// Both decoders go on from this retained table.
    pub fn plant(&mut self, table: &[i16]) {
        self.listener.plant(table);
        // Zeros are what a programme start writes.
        self.warned = table.iter().any(|&number| number != 0);
        self.found.retained[..NEEDED[RETAINED]].copy_from_slice(table);
    }
}
