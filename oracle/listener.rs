//! The Rust decoder with the model of marks beside it: what the specification expects of each call.

use crate::answer::{Frame, Oracle, Refusal, Row};
use crate::call::Call;
use crate::distances;
use crate::form::rows_of;
use crate::mark_mistakes::Mistake;
use crate::marks::Marks;
use crate::orders::Order;
use crate::tables::{COUNT, DOUBT, KIND, MARK, RETAINED_HEAD, RETAINED_LENGTH, ROW_WIDTH};

/// The number given back and the six numbers of the answer.
#[derive(Clone, Copy, Debug, Default, PartialEq, Eq)]
pub struct Said {
    pub number: u32,
    pub context: u32,
    pub place: u32,
    pub objects: u32,
    pub blocks: u32,
    pub unsettled: u32,
    pub missing: u32,
}

impl Said {
    /// A number with nothing beside it.
    pub fn only(number: u32) -> Self {
        Said {
            number,
            ..Said::default()
        }
    }
}

impl From<Refusal> for Said {
    fn from(refusal: Refusal) -> Self {
        Said {
            number: u32::from(refusal.number),
            context: u32::from(refusal.context),
            place: refusal.place as u32,
            missing: refusal.missing as u32,
            ..Said::default()
        }
    }
}

/// What one payload is to give. The rows are those of the tables, number by number; a refusal has none.
#[derive(Clone, Default)]
pub struct Expected {
    pub said: Said,
    pub timings: Vec<u16>,
    pub start: Vec<i16>,
    pub blocks: Vec<i16>,
    pub orders: Vec<Order>,
    /// Whether rows were retained, of other kinds than the payload's.
    pub kinds_changed: bool,
}

#[derive(Default)]
pub struct Listener {
    oracle: Oracle,
    marks: Marks,
}

impl Listener {
    /// One whose marks follow a wrong reading.
    pub fn mistaken(mistake: Mistake) -> Self {
        let mut listener = Listener::default();
        listener.marks.mistake = Some(mistake);
        listener
    }

    /// One whose distances do.
    pub fn misplaced(mistake: distances::Mistake) -> Self {
        let mut listener = Listener::default();
        listener.oracle.distances.mistake = Some(mistake);
        listener
    }

    pub fn call(&mut self, call: Call) {
        self.oracle.call(call);
        self.marks.call(call);
    }

    pub fn doubts(&self) -> bool {
        self.marks.doubt
    }

    /// Goes on from any retained table in form.
    pub fn plant(&mut self, table: &[i16]) {
        let rows = rows_of(table);
        self.oracle.plant(&rows);
        let marks = table[RETAINED_HEAD..]
            .chunks(ROW_WIDTH)
            .map(|row| row[MARK]);
        self.marks.marks = marks.take(rows.len()).collect();
        self.marks.kinds = rows.iter().map(|row| row[KIND]).collect();
        self.marks.doubt = table[DOUBT] == 1;
    }

    pub fn decode(&mut self, payload: &[u8]) -> Expected {
        let before = self.marks.kinds.clone();
        match self.oracle.decode(payload) {
            Ok(frame) => {
                let kinds_changed = !before.is_empty() && before != frame.kinds;
                let expected = self.accept(frame);
                Expected {
                    kinds_changed,
                    ..expected
                }
            }
            Err(refusal) => {
                self.marks.refuse();
                Expected {
                    said: Said::from(refusal),
                    ..Expected::default()
                }
            }
        }
    }

    fn accept(&mut self, frame: Frame) -> Expected {
        let blocks = frame.timings.len();
        let marks = self.marks.accept(&frame.kinds, blocks, &frame.orders);
        Expected {
            said: Said {
                objects: frame.kinds.len() as u32,
                blocks: blocks as u32,
                unsettled: marks.unsettled,
                ..Said::default()
            },
            timings: frame.timings.as_flattened().to_vec(),
            start: marked(&frame.start, &marks.start),
            blocks: marked(&frame.blocks, &marks.blocks),
            orders: frame.orders,
            kinds_changed: false,
        }
    }

    /// The whole retained table, zeros behind the rows: as a start, a reset or the last acceptance left it.
    pub fn retained(&self) -> Vec<i16> {
        let rows = self.oracle.retained();
        let mut table = vec![0; RETAINED_LENGTH];
        table[COUNT] = rows.len() as i16;
        table[DOUBT] = i16::from(self.marks.doubt);
        let numbers = marked(&rows, &self.marks.marks);
        table[RETAINED_HEAD..RETAINED_HEAD + numbers.len()].copy_from_slice(&numbers);
        table
    }
}

fn marked(rows: &[Row], marks: &[i16]) -> Vec<i16> {
    assert_eq!(rows.len(), marks.len(), "a mark for each row");
    let pairs = rows.iter().zip(marks);
    pairs
        .flat_map(|(row, &mark)| row.iter().copied().chain([mark]))
        .collect()
}
