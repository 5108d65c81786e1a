//! A case of given inputs: each call is made on copies of the tables, and its answer and what it wrote are put down.

use crate::calls::{self, Bring, Tables};
use crate::document::*;
use crate::format::*;
use crate::off;
use crate::reshape;

fn nothing(_: ()) -> Vec<usize> {
    vec![]
}

fn counts((v, e, f): calls::Counts) -> Vec<usize> {
    vec![v, e, f]
}

/// The numbers and the list that ring calls are given; each call takes those it has use for.
#[derive(Default)]
pub struct RingInputs {
    pub count: usize,
    pub v: usize,
    pub a: usize,
    pub x: usize,
    pub list: Vec<usize>,
}

/// Whether a ring call brings x into the ring beside a.
pub fn brings(call: u8) -> bool {
    [REPLACE, INSERT_AFTER, INSERT_BEFORE].contains(&call)
}

pub fn ring_call(call: u8, inputs: &RingInputs, mut t: Tables) -> Case {
    let &RingInputs { count, v, a, x, ref list } = inputs;
    let before = t.clone();
    let mut case = Case::new(call);
    case.scalar(count);
    case.scalar(v);
    if brings(call) {
        case.scalar(a);
    }
    if call != MAKE && call != VALENCE {
        case.scalar(x);
    }
    case.ring_tables(&t);
    if call == MAKE {
        case.items(list);
    }
    let null = NULL as usize;
    match call {
        MAKE => case.answer(calls::make(&mut t, count, v, list), nothing, &[]),
        ERASE => case.answer(calls::erase(&mut t, count, v, x), nothing, &[]),
        REPLACE => case.answer(calls::bring(&mut t, Bring::Replace, count, v, a, x), nothing, &[]),
        INSERT_AFTER => case.answer(calls::bring(&mut t, Bring::After, count, v, a, x), nothing, &[]),
        INSERT_BEFORE => case.answer(calls::bring(&mut t, Bring::Before, count, v, a, x), nothing, &[]),
        CONTAINS => case.answer(calls::ring_of(&t, count, v), |ring| vec![ring.contains(&x) as usize], &[0]),
        VALENCE => case.answer(calls::ring_of(&t, count, v), |ring| vec![ring.len()], &[0]),
        NEXT => case.answer(calls::ring_of(&t, count, v), |ring| vec![next(&ring, x).unwrap_or(null)], &[null]),
        _ => case.answer(calls::ring_of(&t, count, v), |ring| vec![prev(&ring, x).unwrap_or(null)], &[null]),
    }
    case.ring_runs(&before, &t);
    case
}

pub fn check_call(count: usize, t: Tables) -> Case {
    let mut case = Case::new(CHECK);
    case.scalar(count);
    case.mesh_tables(&t);
    case.answer(calls::check(&t, count), counts, &[0, 0, 0]);
    case.mesh_runs(&t, &t);
    case
}

pub fn refine_call(count: usize, levels: usize, mut t: Tables) -> Case {
    let before = t.clone();
    let mut case = Case::new(REFINE);
    case.scalar(count);
    case.scalar(levels);
    case.mesh_tables(&t);
    case.answer(calls::refine(&mut t, count, levels), counts, &[0, 0, 0]);
    case.mesh_runs(&before, &t);
    case
}

pub fn moves_call(count: usize, levels: usize, mut t: Tables, mut map: Vec<u32>, list: &[Move]) -> Case {
    let (before, map_before) = (t.clone(), map.clone());
    let mut case = Case::new(MOVES);
    case.scalar(count);
    case.scalar(levels);
    case.mesh_tables(&t);
    case.table(&map);
    case.moves(list);
    case.answer(calls::moves(&mut t, &mut map, count, levels, list), |touched| vec![touched], &[0]);
    case.mesh_runs(&before, &t);
    case.runs(&map_before, &map);
    case
}

/// An edit of the mesh; the format has no counts for it.
pub fn reshape_call(call: u8, count: usize, named: &[usize], mut t: Tables) -> Case {
    let before = t.clone();
    let mut case = Case::new(call);
    case.scalar(count);
    named.iter().for_each(|&v| case.scalar(v));
    case.mesh_tables(&t);
    let answer = match *named {
        [u, v] if call == SPLIT_EDGE => reshape::split_edge(&mut t, count, u, v),
        [u, v] => reshape::flip(&mut t, count, u, v),
        [u, v, w] => reshape::split_face(&mut t, count, [u, v, w]),
        _ => panic!("an edge or a face"),
    };
    case.answer(answer.map(|_| ()), nothing, &[]);
    case.mesh_runs(&before, &t);
    case
}

/// The mesh file or the OFF text is read.
pub fn read_call(call: u8, bytes: &[u8], mut t: Tables) -> Case {
    let before = t.clone();
    let mut case = Case::new(call);
    case.table(bytes);
    case.mesh_tables(&t);
    let answer = if call == READ { calls::read(bytes, &mut t) } else { off::read(bytes, &mut t) };
    case.answer(answer, |count| vec![count], &[0]);
    case.mesh_runs(&before, &t);
    case
}

/// The mesh file or the OFF text is written.
pub fn write_call(call: u8, count: usize, t: Tables, mut file: Vec<u8>) -> Case {
    let before = file.clone();
    let mut case = Case::new(call);
    case.scalar(count);
    case.mesh_tables(&t);
    case.table(&file);
    let answer = if call == WRITE { calls::write(&t, count, &mut file) } else { off::write(&t, count, &mut file) };
    case.answer(answer, |bytes| vec![bytes], &[0]);
    case.mesh_runs(&t, &t);
    case.runs(&before, &file);
    case
}

pub fn listing_call(bytes: &[u8]) -> Case {
    let mut case = Case::new(LISTING);
    case.table(bytes);
    case.text(&calls::listing(bytes));
    case
}
