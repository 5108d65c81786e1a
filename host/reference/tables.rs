//! Tables for cases: control meshes, sound, damaged or of noise, too short or too long.

use crate::calls::Tables;
use crate::document::*;
use crate::meshes::*;
use crate::random::Random;

/// Numbers that are hardly ever right.
const ODD: [usize; 8] = [0, 3, 1024, 1025, 65_535, 65_536, 65_540, 4_294_967_295];

/// Mostly the right number, now and then another.
pub fn mostly(random: &Random, right: usize) -> usize {
    match random.below(24) {
        0 => right + 1,
        1 => right.saturating_sub(1),
        2 => random.pick(&ODD),
        _ => right,
    }
}

/// Now and then one of the tables becomes too short, by one item or by many, or longer than needed.
pub fn resize(random: &Random, t: &mut Tables, rows: usize) {
    let cut = |random: &Random, length: usize| if random.once_in(2) { length - 1 } else { random.below(length) };
    match random.below(16) {
        0 => t.valences.truncate(cut(random, rows)),
        1 => t.rings.truncate(cut(random, PLACES * rows)),
        2 => t.positions.truncate(cut(random, 3 * rows)),
        3 => t.rings.extend([1, 2, 3]),
        4 => t.positions.push(9),
        5 => t.valences.push(9),
        _ => {}
    }
}

/// The ring of a row that has not been damaged too much to be read.
pub fn readable(t: &Tables, v: usize) -> Option<Vec<usize>> {
    if (1..=32).contains(&t.valences[v]) { Some(t.ring(v)) } else { None }
}

/// One thing about the ring of one vertex goes wrong, or is at least odd.
pub fn damage_ring(random: &Random, t: &mut Tables, count: usize) {
    let v = random.below(count);
    let mut ring = match readable(t, v) { Some(ring) => ring, None => return };
    let i = random.below(ring.len());
    let unused = PLACES * v + ring.len();
    match random.below(13) {
        0 => t.valences[v] = random.pick(&[0, 1, 2, 33, 65_535]),
        1 => t.valences[v] = random.below(33) as u16,
        2 => t.rings[PLACES * v + i] = random.pick(&[count, v, 65_535, count + 7]) as u16,
        3 => t.rings[PLACES * v + i] = ring[(i + 1) % ring.len()] as u16,
        4 => t.rings[PLACES * v + i] = random.below(count) as u16,
        5 => {
            ring.remove(i);
            t.set_ring(v, &ring);
        }
        6 => {
            ring.swap(i, random.below(t.valences[v] as usize));
            t.set_ring(v, &ring);
        }
        7 => {
            ring.reverse();
            t.set_ring(v, &ring);
        }
        8 => {
            ring.rotate_left(i);
            t.set_ring(v, &ring);
        }
        9 if ring.len() < PLACES => {
            ring.insert(i, random.below(count));
            t.set_ring(v, &ring);
        }
        10 if ring.len() < PLACES => t.rings[unused] = random.bits() as u16,
        11 => {
            let u = ring[i];
            let mut back = match readable(t, u % count) { Some(ring) => ring, None => return };
            ring.remove(i);
            back.retain(|&w| w != v);
            t.set_ring(v, &ring);
            t.set_ring(u % count, &back);
        }
        _ => t.positions[3 * v + random.below(3)] = random.pick(&BEYOND),
    }
}

pub const BEYOND: [i32; 6] = [1_048_577, -1_048_577, i32::MAX, i32::MIN, 1_048_576, -1_048_576];

/// For a control mesh that must be sound.
pub const NEVER: usize = usize::MAX;

/// A row and the place behind it with 33 different neighbours, so that nothing but the valence is wrong.
pub fn overfill(random: &Random, t: &mut Tables, count: usize) {
    let v = random.below(count - 1);
    let mut others: Vec<usize> = (0..count).filter(|&u| u != v && u != v + 1).collect();
    if others.len() > PLACES {
        random.shuffle(&mut others);
        t.set_ring(v, &others[..PLACES]);
        t.valences[v] = 33;
        t.rings[PLACES * (v + 1)] = others[PLACES] as u16;
    }
}

/// A control mesh, sound or, once in so many times, with some damage.
pub fn control(random: &Random, size: usize, damaged_in: usize) -> (Tables, usize) {
    let surface = any_surface(random, size);
    let spare = if random.once_in(3) { random.below(4) } else { 0 };
    let mut t = tables(random, &surface, surface.count + spare);
    if random.once_in(damaged_in) {
        (0..1 + random.below(2)).for_each(|_| damage_ring(random, &mut t, surface.count));
        if random.once_in(8) {
            overfill(random, &mut t, surface.count);
        }
    }
    (t, surface.count)
}

/// A table in which nothing at all is right.
pub fn noise(random: &Random) -> (Tables, usize) {
    let count = 4 + random.below(6);
    let mut t = Tables::with_rows(count);
    for v in 0..count {
        t.valences[v] = 3 + random.below(3) as u16;
        (0..8).for_each(|i| t.rings[PLACES * v + i] = random.below(count) as u16);
    }
    (t, count)
}

/// How many vertices a sound mesh's stack of so many levels has.
pub fn total(t: &Tables, count: usize, levels: usize) -> usize {
    let ends: usize = (0..count).map(|v| t.valences[v].min(32) as usize).sum();
    let (mut level, mut all, mut edges) = (count, count, ends / 2);
    for _ in 0..levels {
        level += edges;
        edges *= 4;
        all += level;
    }
    all
}

pub fn grow(t: &mut Tables, rows: usize, fill: u16) {
    t.valences.resize(rows.max(t.valences.len()), fill);
    t.rings.resize((PLACES * rows).max(t.rings.len()), fill);
    t.positions.resize((3 * rows).max(t.positions.len()), fill as i32);
}

/// The most levels whose stack has at most so many vertices; at least one.
pub fn fitting(t: &Tables, count: usize, most: usize) -> usize {
    (2..=4).take_while(|&levels| total(t, count, levels) <= most).last().unwrap_or(1)
}
