//! The format of cases: inputs, the answer, and the runs in which each lent table differs afterwards.

use crate::calls::Tables;
use crate::document::{Move, Refusal};

pub const MAKE: u8 = 1;
pub const ERASE: u8 = 2;
pub const REPLACE: u8 = 3;
pub const INSERT_AFTER: u8 = 4;
pub const INSERT_BEFORE: u8 = 5;
pub const CONTAINS: u8 = 6;
pub const VALENCE: u8 = 7;
pub const NEXT: u8 = 8;
pub const PREV: u8 = 9;
pub const CHECK: u8 = 10;
pub const REFINE: u8 = 11;
pub const MOVES: u8 = 12;
pub const READ: u8 = 13;
pub const WRITE: u8 = 14;
pub const LISTING: u8 = 15;
pub const SPLIT_EDGE: u8 = 16;
pub const SPLIT_FACE: u8 = 17;
pub const FLIP: u8 = 18;
pub const READ_OFF: u8 = 19;
pub const WRITE_OFF: u8 = 20;

const RAGGED: u8 = 1;
const WIDE: u8 = 2;
/// Set in cases of others that hold only where halves go upward.
pub const UP: u8 = 8;

pub trait Item: Copy + PartialEq {
    fn put(self, out: &mut Vec<u8>);
}

macro_rules! little_endian_item {
    ($($t:ty),*) => { $(impl Item for $t {
        fn put(self, out: &mut Vec<u8>) {
            out.extend(self.to_le_bytes());
        }
    })* };
}
little_endian_item!(u8, u16, u32, i32);

/// One case while it is written: first inputs, then the answer, then the tables. How its answer reads and what its
/// tables hold before and after, with the size of their items, is kept beside it, and whether every sample has it.
pub struct Case {
    pub bytes: Vec<u8>,
    pub answer: Vec<u8>,
    pub tables: Vec<(Vec<u8>, Vec<u8>, usize)>,
    pub kept: bool,
}

fn bytes_of<T: Item>(table: &[T]) -> Vec<u8> {
    let mut out = Vec::new();
    table.iter().for_each(|item| item.put(&mut out));
    out
}

impl Case {
    pub fn new(call: u8) -> Case {
        Case { bytes: vec![call, 0, 0, 0], answer: vec![], tables: vec![], kept: false }
    }

    pub fn scalar(&mut self, number: usize) {
        if number > 65_535 {
            self.bytes[1] |= WIDE;
        }
        (number as u32).put(&mut self.bytes);
    }

    pub fn table<T: Item>(&mut self, table: &[T]) {
        (table.len() as u32).put(&mut self.bytes);
        table.iter().for_each(|item| item.put(&mut self.bytes));
    }

    pub fn ring_tables(&mut self, t: &Tables) {
        if t.rings.len() % 32 != 0 {
            self.bytes[1] |= RAGGED;
        }
        self.table(&t.valences);
        self.table(&t.rings);
    }

    pub fn mesh_tables(&mut self, t: &Tables) {
        if t.positions.len() % 3 != 0 {
            self.bytes[1] |= RAGGED;
        }
        self.ring_tables(t);
        self.table(&t.positions);
    }

    pub fn items(&mut self, list: &[usize]) {
        (list.len() as u32).put(&mut self.bytes);
        list.iter().for_each(|&item| self.scalar(item));
    }

    pub fn moves(&mut self, list: &[Move]) {
        (list.len() as u32).put(&mut self.bytes);
        for change in list {
            self.scalar(change.vertex as usize);
            change.kind.put(&mut self.bytes);
            change.numbers.iter().for_each(|number| self.bytes.extend(number.to_bits().to_le_bytes()));
        }
    }

    /// Number and place, then the values of an accepted call or those of a refused one.
    pub fn answer<T>(&mut self, answer: Result<T, Refusal>, values: impl Fn(T) -> Vec<usize>, refused: &[usize]) {
        let (number, place, values) = match answer {
            Ok(value) => (0, 0, values(value)),
            Err(refusal) => (refusal.number as usize, refusal.place, refused.to_vec()),
        };
        (number as u32).put(&mut self.answer);
        (place as u32).put(&mut self.answer);
        values.iter().for_each(|&value| (value as u32).put(&mut self.answer));
        self.bytes.extend(&self.answer);
    }

    /// The text that the listing program answers.
    pub fn text(&mut self, text: &str) {
        (text.len() as u32).put(&mut self.answer);
        self.answer.extend(text.as_bytes());
        self.bytes.extend(&self.answer);
    }

    /// The runs in which a table differs from what was lent.
    pub fn runs<T: Item>(&mut self, before: &[T], after: &[T]) {
        self.tables.push((bytes_of(before), bytes_of(after), std::mem::size_of::<T>()));
        let mut runs: Vec<(usize, usize)> = Vec::new();
        for i in (0..before.len()).filter(|&i| before[i] != after[i]) {
            match runs.last_mut() {
                Some(run) if run.1 == i => run.1 = i + 1,
                _ => runs.push((i, i + 1)),
            }
        }
        (runs.len() as u32).put(&mut self.bytes);
        for (from, to) in runs {
            (from as u32).put(&mut self.bytes);
            self.table(&after[from..to]);
        }
    }

    pub fn ring_runs(&mut self, before: &Tables, after: &Tables) {
        self.runs(&before.valences, &after.valences);
        self.runs(&before.rings, &after.rings);
    }

    pub fn mesh_runs(&mut self, before: &Tables, after: &Tables) {
        self.ring_runs(before, after);
        self.runs(&before.positions, &after.positions);
    }
}

/// A whole file of cases.
pub fn file(cases: &[Case]) -> Vec<u8> {
    let mut out = b"RNGCASE1".to_vec();
    (cases.len() as u32).put(&mut out);
    for case in cases {
        out.extend((case.bytes.len() as u32).to_le_bytes());
        out.extend(&case.bytes);
    }
    out
}
