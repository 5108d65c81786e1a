//! Holds the reference to cases that others have made.

use crate::answers::*;
use crate::calls::Tables;
use crate::document::Move;
use crate::format::*;

/// The bytes of a case, read from front to back.
struct Body<'a>(&'a [u8]);

impl<'a> Body<'a> {
    fn take(&mut self, bytes: usize) -> &'a [u8] {
        let (taken, rest) = self.0.split_at(bytes);
        self.0 = rest;
        taken
    }

    fn scalar(&mut self) -> usize {
        u32::from_le_bytes(self.take(4).try_into().unwrap()) as usize
    }

    fn table<const N: usize, T>(&mut self, item: impl Fn([u8; N]) -> T) -> Vec<T> {
        let length = self.scalar();
        self.take(N * length).chunks(N).map(|bytes| item(bytes.try_into().unwrap())).collect()
    }

    fn ring_tables(&mut self) -> Tables {
        Tables { valences: self.table(u16::from_le_bytes), rings: self.table(u16::from_le_bytes), positions: vec![] }
    }

    fn mesh_tables(&mut self) -> Tables {
        let rings = self.ring_tables();
        Tables { positions: self.table(i32::from_le_bytes), ..rings }
    }

    fn moves(&mut self) -> Vec<Move> {
        self.table(|bytes: [u8; 32]| {
            let mut body = Body(&bytes);
            let (vertex, kind) = (body.scalar() as u32, body.scalar() as u32);
            let numbers = [0, 1, 2].map(|_| f64::from_le_bytes(body.take(8).try_into().unwrap()));
            Move { vertex, kind, numbers }
        })
    }
}

/// The case anew, from the inputs of a given one.
fn again(call: u8, body: &mut Body) -> Case {
    match call {
        CHECK => check_call(body.scalar(), body.mesh_tables()),
        REFINE => refine_call(body.scalar(), body.scalar(), body.mesh_tables()),
        MOVES => {
            let (count, levels) = (body.scalar(), body.scalar());
            moves_call(count, levels, body.mesh_tables(), body.table(u32::from_le_bytes), &body.moves())
        }
        READ | READ_OFF => read_call(call, &body.table(u8::from_le_bytes), body.mesh_tables()),
        WRITE | WRITE_OFF => write_call(call, body.scalar(), body.mesh_tables(), body.table(u8::from_le_bytes)),
        LISTING => listing_call(&body.table(u8::from_le_bytes)),
        SPLIT_EDGE | SPLIT_FACE | FLIP => {
            let count = body.scalar();
            let named: Vec<usize> = (0..if call == SPLIT_FACE { 3 } else { 2 }).map(|_| body.scalar()).collect();
            reshape_call(call, count, &named, body.mesh_tables())
        }
        _ => {
            let mut inputs = RingInputs { count: body.scalar(), v: body.scalar(), ..RingInputs::default() };
            inputs.a = if brings(call) { body.scalar() } else { 0 };
            inputs.x = if call == MAKE || call == VALENCE { 0 } else { body.scalar() };
            let t = body.ring_tables();
            if call == MAKE {
                inputs.list = body.table(|bytes| u32::from_le_bytes(bytes) as usize);
            }
            ring_call(call, &inputs, t)
        }
    }
}

/// Whether the rest of a case, its answer and its runs, say what the reference finds.
fn agrees(case: &Case, rest: &mut Body) -> bool {
    if !rest.0.starts_with(&case.answer) {
        return false;
    }
    rest.take(case.answer.len());
    let mut agrees = true;
    for (before, after, size) in &case.tables {
        let mut expected = before.clone();
        for _ in 0..rest.scalar() {
            let (start, length) = (rest.scalar(), rest.scalar());
            expected[size * start..][..size * length].copy_from_slice(rest.take(size * length));
        }
        agrees = agrees && expected == *after;
    }
    agrees && rest.0.is_empty()
}

/// A file of cases anew, with the flag UP in those that a list names: a number from 0 on each line.
pub fn flagged(file: &[u8], list: &str) -> Vec<u8> {
    let mut body = Body(&file[8..]);
    let heads: Vec<usize> = (0..body.scalar())
        .map(|_| {
            let length = body.scalar();
            body.take(length);
            file.len() - body.0.len() - length
        })
        .collect();
    let mut out = file.to_vec();
    list.lines().for_each(|number| out[heads[number.parse::<usize>().expect("a case's number")] + 1] |= UP);
    out
}

/// Compares every case of a file but those of another rounding; answers how many were compared, how many skipped, and which
/// differ.
pub fn compare(file: &[u8]) -> (usize, usize, Vec<usize>) {
    let mut file = Body(file);
    assert_eq!(file.take(8), b"RNGCASE1");
    let (cases, mut skipped, mut different) = (file.scalar(), 0, vec![]);
    for i in 0..cases {
        let length = file.scalar();
        let mut body = Body(file.take(length));
        let head = body.take(4);
        let (call, flags) = (head[0], head[1]);
        assert!((MAKE..=WRITE_OFF).contains(&call), "no such call");
        if flags & UP != 0 {
            skipped += 1;
        } else if !agrees(&again(call, &mut body), &mut body) {
            different.push(i);
        }
    }
    (cases - skipped, skipped, different)
}
