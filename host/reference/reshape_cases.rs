//! Cases of edits of the mesh: edges and faces of any sound mesh, and those at which something changes.

use crate::answers::reshape_call;
use crate::calls::Tables;
use crate::document::PLACES;
use crate::examples::{octahedron, tetrahedron};
use crate::format::*;
use crate::meshes::{double_cone, globe, tables, Surface};
use crate::random::Random;
use crate::tables::*;

/// A neighbour of v and the one after it; others where the ring cannot be read.
fn two_neighbours(random: &Random, t: &Tables, count: usize, v: usize) -> (usize, usize) {
    match readable(t, v) {
        Some(ring) => {
            let i = random.below(ring.len());
            (ring[i], ring[(i + 1) % ring.len()])
        }
        None => (random.below(count), random.below(count)),
    }
}

/// What an edit names: mostly an edge or a face, now and then vertices that are none, one twice, or a number too large.
fn some_names(random: &Random, call: u8, t: &Tables, count: usize) -> Vec<usize> {
    let v = random.below(count);
    let (u, w) = two_neighbours(random, t, count, v);
    let mut named = vec![u, v, w];
    named.rotate_left(random.below(3));
    if call != SPLIT_FACE {
        named.truncate(2);
        random.shuffle(&mut named);
    }
    let i = random.below(named.len());
    match random.below(16) {
        0 => named[i] = random.below(count),
        1 => named[i] = named[(i + 1) % named.len()],
        2 => named[i] = random.pick(&[count, 65_535, 65_536, 65_536 + named[i], 4_294_967_295]),
        3 => named.reverse(),
        _ => {}
    }
    named
}

/// Cones of which one tip, both or none have 32 neighbours, and a vertex of valence 3 beside the first tip.
fn nearly_full(random: &Random, n: usize) -> Surface {
    let mut surface = double_cone(n);
    surface.split_face(0);
    if random.once_in(2) {
        surface.flip(random, 4);
    }
    surface
}

fn reshape_case(random: &Random, call: u8) -> Case {
    let size = random.pick(&[4, 6, 12, 30]);
    let (mut t, rows) = match random.below(6) {
        0 => {
            let surface = nearly_full(random, random.pick(&[30, 31, 31]));
            (tables(random, &surface, 0), surface.count)
        }
        1 => (tables(random, &double_cone(32), 0), 34),
        _ => control(random, size, 6),
    };
    grow(&mut t, rows + 1 + random.below(3) / 2, random.bits() as u16);
    let named = some_names(random, call, &t, rows);
    resize(random, &mut t, if random.once_in(4) { rows } else { rows + 1 });
    reshape_call(call, mostly(random, rows), &named, t)
}

/// A case that every sample has.
fn kept(call: u8, count: usize, named: &[usize], t: &Tables) -> Case {
    Case { kept: true, ..reshape_call(call, count, named, t.clone()) }
}

/// Gives the vertices points at which rounding shows, and unused places numbers that must not be read.
fn scatter(random: &Random, t: &mut Tables, count: usize) {
    for v in 0..count {
        t.set_point(v, [0, 1, 2].map(|_| random.between(-9, 9)));
        (t.valences[v] as usize..PLACES).for_each(|i| t.rings[PLACES * v + i] = random.below(count) as u16);
    }
}

/// The document's tetrahedron and octahedron: edges from either end, faces from any corner and the other way round,
/// numbers that are too large by a little or by much.
fn every_small(random: &Random, cases: &mut Vec<Case>) {
    for (mut t, count) in [(tetrahedron(4), 4), (octahedron(6), 6)] {
        scatter(random, &mut t, count);
        grow(&mut t, count + 2, random.bits() as u16);
        for (u, v) in [(0, 1), (1, 0), (2, 3), (1, 3), (3, 3), (0, count), (65_536, 1), (4_294_967_295, 4_294_967_295)] {
            cases.push(kept(SPLIT_EDGE, count, &[u, v], &t));
            cases.push(kept(FLIP, count, &[u, v], &t));
        }
        let w = t.ring(1)[1];
        for named in [[0, 1, w], [1, w, 0], [w, 0, 1], [w, 1, 0], [0, 1, 1], [0, 0, 1], [0, 1, count], [65_536, 1, w]] {
            cases.push(kept(SPLIT_FACE, count, &named, &t));
        }
    }
}

/// Just the row that a split needs, or an item less in one of the tables: 10 there, and nothing to a flip.
fn every_room(random: &Random, cases: &mut Vec<Case>) {
    for short in 0..4 {
        let mut t = octahedron(7);
        scatter(random, &mut t, 6);
        match short {
            0 => t.valences.truncate(6),
            1 => t.rings.truncate(7 * 32 - 1),
            2 => t.positions.truncate(20),
            _ => t.positions[18] = random.bits() as i32,
        }
        for (call, named) in [(SPLIT_EDGE, vec![4, 5]), (SPLIT_FACE, vec![5, 2, 3]), (FLIP, vec![4, 5])] {
            cases.push(kept(call, 6, &named, &t));
        }
    }
}

/// Where one tip is full: 16 as it is a, as it is b, as it is a corner; before 19; where it is an end, or apart, no matter.
fn every_full(random: &Random, cases: &mut Vec<Case>) {
    let mut surface = double_cone(31);
    surface.split_face(0);
    let t = tables(random, &surface, surface.count + 1);
    for (u, v) in [(10, 11), (1, 31), (0, 11), (33, 1), (33, 2), (12, 32)] {
        cases.push(kept(SPLIT_EDGE, surface.count, &[u, v], &t));
        cases.push(kept(FLIP, surface.count, &[u, v], &t));
    }
    for named in [[10, 0, 11], [1, 0, 33], [11, 32, 10], [2, 1, 33], [11, 0, 10]] {
        cases.push(kept(SPLIT_FACE, surface.count, &named, &t));
    }
}

/// Three mutual neighbours that are no face.
fn no_face(random: &Random, cases: &mut Vec<Case>) {
    let t = tables(random, &double_cone(3), 6);
    cases.push(kept(SPLIT_FACE, 5, &[1, 2, 3], &t));
    cases.push(kept(SPLIT_FACE, 5, &[3, 2, 1], &t));
}

/// One vertex less than the most, and the most. Two of these are large enough for a sample.
fn every_large(random: &Random, cases: &mut Vec<Case>) {
    for count in [1023, 1024] {
        let mut surface = globe(127, 8);
        (0..count - surface.count).for_each(|face| surface.split_face(8 * face));
        let t = tables(random, &surface, 1024);
        for call in [SPLIT_EDGE, SPLIT_FACE, FLIP] {
            let v = 1 + random.below(1000);
            let ring = t.ring(v);
            let named = if call == SPLIT_FACE { vec![ring[0], v, ring[1]] } else { vec![ring[0], v] };
            let chosen = (count, call) == (1023, SPLIT_EDGE) || (count, call) == (1024, SPLIT_FACE);
            cases.push(Case { kept: chosen, ..reshape_call(call, count, &named, t.clone()) });
        }
    }
}

/// So many rounds of each edit, and the deterministic cases once.
pub fn all(random: &Random, rounds: usize, cases: &mut Vec<Case>) {
    every_small(random, cases);
    every_room(random, cases);
    every_full(random, cases);
    no_face(random, cases);
    every_large(random, cases);
    for _ in 0..rounds {
        for call in [SPLIT_EDGE, SPLIT_FACE, FLIP] {
            (0..6).for_each(|_| cases.push(reshape_case(random, call)));
        }
    }
}
