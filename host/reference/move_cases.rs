//! Cases of moves: lists of every sort, stacks that were altered, numbers at an edge.

use crate::answers::*;
use crate::calls::{self, Tables};
use crate::document::*;
use crate::format::*;
use crate::meshes::*;
use crate::random::Random;
use crate::tables::*;

/// Floats at which something changes.
fn edge_float(random: &Random) -> f64 {
    let base = random.pick(&[
        0.0, 1024.0, 1023.9999999999999, 1e-14, 1e-13, 1.1368683772161603e-13, 0.1, 0.2, 0.5, 1.0, 2.0, 3.0, 1.0 / 1024.0,
        1.0 / 2048.0, 3.0 / 2048.0, 2047.0 / 2048.0, 1023.99951171875, 1e300, f64::MAX, f64::MIN_POSITIVE, 5e-324,
        4.9e-324, 0.00048828125, 0.000488281250000001, 1.0 / 3.0, 1025.0, 512.0, 4194304.0, 1e-320,
    ]);
    let near = match random.below(5) {
        0 => f64::from_bits(base.to_bits() + 1),
        1 => f64::from_bits(base.to_bits().saturating_sub(1)),
        _ => base,
    };
    if random.once_in(2) { -near } else { near }
}

/// A number for a move: at an edge, of any bits, a half unit and its neighbours, or an ordinary one.
fn some_float(random: &Random, wild: bool) -> f64 {
    match random.below(if wild { 8 } else { 4 }) {
        0 => random.between(-2_000_000, 2_000_000) as f64 / 2048.0,
        1 => f64::from_bits((random.between(-2_000_000, 2_000_000) as f64 / 2048.0).to_bits() ^ random.bits() % 4),
        2 => random.between(-1_000_000_000, 1_000_000_000) as f64 / 1e6,
        3 => random.between(-3, 3) as f64 / 2.0,
        4 | 5 => edge_float(random),
        6 => random.pick(&[f64::NAN, f64::INFINITY, f64::NEG_INFINITY, f64::from_bits(0xfff0_0000_0000_0001)]),
        _ => f64::from_bits(random.bits()),
    }
}

fn some_move(random: &Random, count: usize, wild: bool) -> Move {
    let kind = if random.once_in(200) { random.pick(&[3, 4, u32::MAX]) } else { random.below(3) as u32 };
    let vertex = if random.once_in(if kind > 2 { 2 } else { 120 }) { random.pick(&[count, 65_535, 65_536, 4_294_967_295]) } else { random.below(count) };
    Move { vertex: vertex as u32, kind, numbers: [0, 1, 2].map(|_| tame(random, kind, wild)) }
}

/// Shifts and stretches are kept small where the list is to be accepted.
fn tame(random: &Random, kind: u32, wild: bool) -> f64 {
    let number = some_float(random, wild);
    match kind {
        _ if wild => number,
        1 => number / 1024.0,
        2 => number.rem_euclid(1.0) * if random.once_in(2) { -1.0 } else { 1.0 },
        _ => number,
    }
}

fn some_moves(random: &Random, count: usize) -> Vec<Move> {
    let length = random.pick(&[0, 1, 1, 1, 2, 3, 5, 10, 30, 63, 64, 64, 65, 66, 100]);
    let wild = random.once_in(3);
    let few = if random.once_in(3) { count.min(3) } else { count };
    let mut list: Vec<Move> = (0..length).map(|_| some_move(random, few, false)).collect();
    if wild && length > 0 {
        let i = random.pick(&[0, length - 1, random.below(length)]);
        list[i] = some_move(random, count, true);
    }
    list
}

/// Gives two vertices of the last level each other's numbers everywhere, so that all but the numbering is right.
fn exchange(t: &mut Tables, start: usize, count: usize, x: usize, y: usize) {
    let swapped = |v: usize| if v == x { y } else if v == y { x } else { v };
    let rings: Vec<Vec<usize>> = (0..count).map(|v| t.ring(start + v)).collect();
    for v in 0..count {
        let ring: Vec<usize> = rings[v].iter().map(|&u| swapped(u)).collect();
        t.set_ring(start + swapped(v), &ring);
    }
}

/// Something at stack vertex i, or elsewhere in levels 1 and up, is not what refinement left there.
fn alter_stack(random: &Random, t: &mut Tables, count: usize, rows: usize, i: usize) {
    let mut ring = match readable(t, i) { Some(ring) => ring, None => return };
    let place = PLACES * i + random.below(ring.len());
    match random.below(12) {
        0 => t.valences[i] = random.pick(&[0, 1, 5, 6, 7, 33, 65_535]),
        1 => t.rings[place] = random.bits() as u16,
        2 => t.rings[place] = t.rings[place].wrapping_add(1),
        3 => {
            ring.rotate_left(1);
            t.set_ring(i, &ring);
        }
        4 => {
            ring.reverse();
            t.set_ring(i, &ring);
        }
        5 => {
            let j = count + random.below(rows - count);
            let other = match readable(t, j) { Some(ring) => ring, None => return };
            t.set_ring(i, &other);
            t.set_ring(j, &ring);
        }
        6 => t.positions[3 * i + random.below(3)] = random.pick(&BEYOND),
        7 => t.rings[PLACES * i + 31] = if ring.len() < 32 { random.bits() as u16 } else { t.rings[PLACES * i + 31] },
        8 => t.positions[3 * random.below(count)] = random.between(-FAR, FAR) as i32,
        _ => {
            for _ in 0..1 + random.below(20) {
                let j = count + random.below(rows - count);
                t.positions[3 * j + random.below(3)] = random.between(-FAR, FAR) as i32;
            }
        }
    }
}

pub fn move_case(random: &Random, most: usize) -> Case {
    let size = random.pick(&[4, 8, 20]);
    let (mut t, count) = control(random, size, NEVER);
    let fit = fitting(&t, count, most);
    let refined = 1 + random.below(fit);
    let room = total(&t, count, refined) + random.below(2);
    grow(&mut t, room, random.bits() as u16);
    let _ = calls::refine(&mut t, count, refined);
    let levels = if random.once_in(4) { 1 + random.below(refined) } else { refined };
    let rows = total(&t, count, levels);
    match random.below(6) {
        0 => {
            let start = total(&t, count, levels - 1);
            let old = if levels > 1 { start - total(&t, count, levels - 2) } else { count };
            let (x, y) = (old + random.below(rows - start - old), old + random.below(rows - start - old));
            exchange(&mut t, start, rows - start, x, y);
        }
        1 | 2 => {
            let first = random.pick(&[count, rows - 1, count + random.below(rows - count), count + random.below(rows - count)]);
            (first..rows).take(1 + random.below(3)).for_each(|i| alter_stack(random, &mut t, count, rows, i));
        }
        _ => {}
    }
    if random.once_in(12) {
        damage_ring(random, &mut t, count);
    }
    if random.once_in(3) {
        resize(random, &mut t, rows);
    }
    let list = some_moves(random, count);
    let words = (rows + 31) / 32;
    let map = match random.below(12) {
        0 => words - 1,
        1 => random.below(words),
        2 | 3 => words + 1 + random.below(4),
        _ => words,
    };
    moves_as_they_stand(random, t, map, count, levels, &list)
}

pub fn moves_as_they_stand(
    random: &Random,
    t: Tables,
    words: usize,
    count: usize,
    levels: usize,
    list: &[Move],
) -> Case {
    let count = if random.once_in(3) { mostly(random, count) } else { count };
    let levels = if random.once_in(24) { random.pick(&[0, 5, 65_537, levels + 1]) } else { levels };
    let map = (0..words).map(|_| random.bits() as u32).collect();
    moves_call(count, levels, t, map, list)
}

/// One move of a tetrahedron with numbers at an edge, from points at an edge.
pub fn float_case(random: &Random) -> Case {
    let mut t = tables(random, &tetrahedron(), 14);
    let v = random.below(4);
    t.set_point(v, [0, 1, 2].map(|_| random.pick(&[FAR, -FAR, 0, 1, -1, 102, 524_288, FAR - 1, 699_051, -1023])));
    let _ = calls::refine(&mut t, 4, 1);
    let list: Vec<Move> = (0..1 + random.below(2))
        .map(|_| Move {
            vertex: v as u32,
            kind: random.below(3) as u32,
            numbers: [0, 1, 2].map(|_| if random.once_in(3) { edge_float(random) } else { some_float(random, false) / 512.0 }),
        })
        .collect();
    moves_as_they_stand(random, t, 1, 4, 1, &list)
}

/// Every number at which something changes, both ways and one float to either side, in every kind of move, from points
/// at the ends of the range and in between.
pub fn every_float(random: &Random, cases: &mut Vec<Case>) {
    let starts = [[0, FAR, -FAR], [FAR - 1, 524_288, 1], [699_051, -102, 102]];
    let floats = [
        0.0, 1024.0, 512.0, 1025.0, 2048.0, 1.0, 0.5, 1.5, 2.0, 0.1, 0.2, 1e-14, 1e-13, 1.0 / 1024.0, 1.0 / 2048.0,
        3.0 / 2048.0, 0.75 / 1024.0, 1023.99951171875, 1e300, f64::MAX, f64::MIN_POSITIVE, 5e-324, f64::INFINITY, f64::NAN,
        1.1368683772161603e-13, 2.2737367544323206e-13, 1024.0 / 3.0, 1536.0, 0.4999999999999999 / 1024.0,
    ];
    for number in floats {
        let bits = number.to_bits();
        for float in [bits.saturating_sub(1), bits, bits + 1].map(f64::from_bits) {
            for kind in 0..3 {
                cases.push(one_float(random, random.pick(&starts), kind, float));
                cases.push(one_float(random, random.pick(&starts), kind, -float));
            }
        }
    }
}

/// One move of one coordinate of a tetrahedron's vertex by a given number.
fn one_float(random: &Random, start: Point, kind: u32, number: f64) -> Case {
    let mut t = tables(random, &tetrahedron(), 14);
    let (v, c) = (random.below(4), random.below(3));
    t.set_point(v, start);
    let _ = calls::refine(&mut t, 4, 1);
    let mut numbers = [if kind == 2 { 1.0 } else { 0.0 }; 3];
    numbers[c] = number;
    moves_call(4, 1, t, vec![0], &[Move { vertex: v as u32, kind, numbers }])
}
