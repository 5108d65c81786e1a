//! Seeded cases for every call: sound meshes and damaged ones, so that every refusal is met.

use crate::answers::*;
use crate::calls::{self, Tables};
use crate::document::*;
use crate::format::*;
use crate::meshes::*;
use crate::move_cases::*;
use crate::off_cases;
use crate::random::Random;
use crate::reshape_cases;
use crate::tables::*;

/// A table and vertex for a ring call: now and then a short, a full or an improper ring.
fn ring_setting(random: &Random) -> (Tables, usize, usize) {
    let size = 4 + random.below(30);
    let (mut t, count) = control(random, size, 3);
    let v = random.below(count);
    match random.below(8) {
        0 => {
            let mut ring: Vec<usize> = (0..count).filter(|&u| u != v).collect();
            random.shuffle(&mut ring);
            ring.truncate(random.below(4));
            t.set_ring(v, &ring);
        }
        1 => {
            let surface = double_cone(32);
            return (tables(random, &surface, 34), 34, random.pick(&[0, 0, 33, 1 + random.below(32)]));
        }
        2 => {
            let surface = globe(5, 8);
            let mut t = tables(random, &surface, surface.count);
            overfill(random, &mut t, surface.count);
            let v = t.valences.iter().position(|&valence| valence == 33).unwrap_or(0);
            return (t, surface.count, v);
        }
        _ => {}
    }
    (t, count, v)
}

/// A vertex number for x or a: present, absent, v itself, or none at all.
fn some_vertex(random: &Random, t: &Tables, count: usize, v: usize) -> usize {
    let valence = (t.valences[v] as usize).min(PLACES);
    match random.below(8) {
        0 | 1 | 2 if valence > 0 => t.rings[PLACES * v + random.below(valence)] as usize,
        3 => v,
        4 => random.pick(&[count, 65_535, 65_536, 65_536 + v, 4_294_967_295]),
        5 if valence > 0 => t.rings[PLACES * v + random.pick(&[0, valence - 1])] as usize,
        _ => random.below(count),
    }
}

/// A number for the x of an edit that brings it in: mostly one that is not there yet.
fn newcomer(random: &Random, t: &Tables, count: usize, v: usize) -> usize {
    let row = &t.rings[PLACES * v..][..(t.valences[v] as usize).min(PLACES)];
    let absent: Vec<usize> = (0..count).filter(|&u| u != v && !row.contains(&(u as u16))).collect();
    if absent.is_empty() || random.once_in(4) { some_vertex(random, t, count, v) } else { random.pick(&absent) }
}

fn some_list(random: &Random, count: usize, v: usize) -> Vec<usize> {
    let mut list: Vec<usize> = (0..count).filter(|&u| u != v).collect();
    random.shuffle(&mut list);
    list.truncate(random.below(36));
    for _ in 0..random.below(6) / 3 {
        let i = random.below(list.len() + 1);
        let repeated = list.first().copied().unwrap_or(v);
        list.insert(i, random.pick(&[v, count, 65_535, repeated, random.below(count)]));
    }
    if random.once_in(12) {
        list = (0..random.pick(&[32, 33, 40])).map(|_| random.below(count)).collect();
    }
    list
}

fn ring_case(random: &Random, call: u8) -> Case {
    let (mut t, rows, at) = ring_setting(random);
    let x = if brings(call) { newcomer(random, &t, rows, at) } else { some_vertex(random, &t, rows, at) };
    let a = some_vertex(random, &t, rows, at);
    let list = some_list(random, rows, at);
    resize(random, &mut t, rows);
    let (count, v) = (mostly(random, rows), mostly(random, at));
    ring_call(call, &RingInputs { count, v, a, x, list }, t)
}

fn check_case(random: &Random) -> Case {
    let size = random.pick(&[4, 10, 30, 100]);
    let (mut t, rows) = if random.once_in(6) { noise(random) } else { control(random, size, 1 + random.below(2)) };
    resize(random, &mut t, rows);
    let count = mostly(random, rows);
    check_call(count, t)
}

fn refine_case(random: &Random, most: usize) -> Case {
    let size = random.pick(&[4, 12, 40]);
    let (mut t, count) = control(random, size, 8);
    let fit = fitting(&t, count, most);
    let levels = 1 + random.below(fit);
    let rows = total(&t, count, levels);
    grow(&mut t, rows + random.below(3), random.bits() as u16);
    resize(random, &mut t, rows);
    refine_as_it_stands(random, t, count, levels)
}

fn refine_as_it_stands(random: &Random, t: Tables, count: usize, levels: usize) -> Case {
    let count = mostly(random, count);
    let levels = if random.once_in(12) { random.pick(&[0, 5, 65_537, 4_294_967_295]) } else { levels };
    refine_call(count, levels, t)
}

/// A surface with splits until it has exactly so many vertices.
fn filled(random: &Random, mut surface: Surface, count: usize) -> Surface {
    while surface.count < count {
        surface.split(random, count - surface.count);
    }
    surface
}

/// Control meshes so large that some level is too large, or just not; there are eight sorts of them.
fn large(random: &Random, sort: usize) -> (Tables, usize) {
    let mut surface = match sort {
        0 => torus(16, 16),
        1 => torus(32, 32),
        2 => torus(15, 17),
        3 => globe(32, 8),
        4 => filled(random, globe(31, 8), 257),
        5 => {
            let mut two_handles = torus(30, 34);
            two_handles.tube(random);
            filled(random, two_handles, 1022)
        }
        6 => filled(random, globe(127, 8), 1024),
        _ => filled(random, globe(51, 8), 400 + random.below(600)),
    };
    surface.flip(random, surface.count);
    surface.renumber(random);
    (tables(random, &surface, surface.count), surface.count)
}

/// A large mesh, now and then damaged, refined or moved.
fn large_case(random: &Random) -> Case {
    let (mut t, count) = large(random, random.below(8));
    if random.once_in(6) {
        damage_ring(random, &mut t, count);
    }
    let levels = 2 + random.below(3);
    if random.once_in(2) {
        return refine_as_it_stands(random, t, count, levels);
    }
    moves_as_they_stand(random, t, 9, count, levels, &[])
}

/// Every sort of large mesh at every number of levels, with no room for any.
fn every_large(random: &Random, cases: &mut Vec<Case>) {
    for sort in 0..8 {
        let (t, count) = large(random, sort);
        for levels in 2..=4 {
            cases.push(refine_call(count, levels, t.clone()));
            cases.push(moves_call(count, levels, t.clone(), vec![], &[]));
        }
    }
}

fn read_case(random: &Random, bytes: &[u8], mut t: Tables) -> Case {
    resize_any(random, &mut t);
    read_call(READ, bytes, t)
}

fn resize_any(random: &Random, t: &mut Tables) {
    if random.once_in(4) && !t.valences.is_empty() {
        let rows = t.valences.len();
        resize(random, t, rows);
    }
}

/// A file of a mesh with some record dropped, doubled, changed or moved, or with bytes cut, added or changed.
fn damaged_file(random: &Random, t: &Tables, count: usize) -> Vec<u8> {
    let mut records = vec![calls::record(1, &(count as u16).to_le_bytes())];
    records.extend((0..count).map(|v| calls::row_record(t.point(v), &t.ring(v))));
    records.push(calls::record(3, &[]));
    let i = random.pick(&[0, 1, count, count + 1, random.below(count + 2)]);
    let mut cut = 0;
    match random.below(14) {
        0 => drop(records.remove(i)),
        1 => records.insert(i, records[i].clone()),
        2 => records[i][4] = random.pick(&[0, 1, 2, 3, 4, 255]),
        3 => records[i][5] = 1,
        4 => records[i][0] = records[i][0].wrapping_add(random.pick(&[1, 2, 255, 254])),
        5 => records[i][3] = random.pick(&[1, 128, 255]),
        6 => records.push(random.pick(&[vec![0], calls::record(3, &[]), calls::record(9, &[1, 2]), vec![7; 6]])),
        7 => cut = 1 + random.below(40),
        8 => records[0] = calls::record(1, &(random.pick(&[0, 1, 3, count + 1, count - 1, 65_535]) as u16).to_le_bytes()),
        9 => records[0] = calls::record(1, &[4, 0, 0]),
        10 if i > 0 && i <= count => records[i][18] = random.pick(&[0, 1, 31, 32, 33, 255]),
        11 => {
            let odd = random.pick(&[32, 33, 34]);
            records[1] = calls::row_record([1, -1, 2], &vec![65_535; odd]);
        }
        12 => records.swap(i, 0),
        _ => {}
    }
    let mut bytes = records.concat();
    bytes.truncate(bytes.len().saturating_sub(cut));
    bytes
}

fn file_case(random: &Random) -> Case {
    let size = random.pick(&[4, 4, 6, 20, 60]);
    let (t, count) = control(random, size, NEVER);
    let bytes = damaged_file(random, &t, count);
    let rows = random.pick(&[count, count, count, count + 1, count + 3, count - 1, 0]);
    let surface = tetrahedron();
    let mut into = tables(random, &surface, rows);
    if rows < 4 {
        into = Tables::with_rows(rows);
    }
    read_case(random, &bytes, into)
}

/// Files of very few and of very many rows.
fn row_count_case(random: &Random) -> Case {
    let count = random.pick(&[0, 1, 2, 3, 4, 1023, 1024, 1025, 2000]);
    let mut bytes = calls::record(1, &(count as u16).to_le_bytes());
    for _ in 0..count {
        let ring: Vec<usize> = (0..random.below(34) % 33).map(|_| random.below(65_536)).collect();
        bytes.extend(calls::row_record([0, 1, 2].map(|_| random.bits() as i32 as i64), &ring));
    }
    bytes.extend(calls::record(3, &[]));
    read_case(random, &bytes, Tables::with_rows(random.pick(&[count, count, 1024, count.saturating_sub(1)])))
}

fn write_case(random: &Random) -> Case {
    let size = random.pick(&[4, 6, 20, 60]);
    let (mut t, rows) = control(random, size, 2);
    resize(random, &mut t, rows);
    let count = mostly(random, rows);
    let exact = calls::write(&t, count, &mut [0; 100_000]).unwrap_or(100);
    let room = random.pick(&[exact, exact, exact + 1, exact + 50, exact - 1, random.below(exact), 0]);
    let file = (0..room).map(|_| random.bits() as u8).collect();
    write_call(WRITE, count, t, file)
}

fn listing_case(random: &Random) -> Case {
    let size = random.pick(&[4, 6, 20, 40, 60]);
    let damaged = if random.once_in(2) { 2 } else { NEVER };
    let (t, count) = control(random, size, damaged);
    let improper = (0..count).any(|v| t.valences[v] > 32);
    let mut bytes = if improper || random.once_in(3) {
        let (sound, count) = control(random, size, NEVER);
        damaged_file(random, &sound, count)
    } else {
        calls::file_of(&t, count)
    };
    match random.below(12) {
        0 => bytes.resize(random.pick(&[16_384, 16_385, 20_000]), 0),
        1 => {
            let surface = globe(random.pick(&[32, 64]), 8);
            bytes = calls::file_of(&tables(random, &surface, 0), surface.count);
        }
        _ => {}
    }
    listing_call(&bytes)
}

/// Every truncation of a small file, and every byte of it changed in a few ways.
fn every_byte(random: &Random, cases: &mut Vec<Case>) {
    let surface = tetrahedron();
    let t = tables(random, &surface, 4);
    let whole = calls::file_of(&t, 4);
    for length in 0..=whole.len() {
        cases.push(read_case(random, &whole[..length], Tables::with_rows(4)));
    }
    for i in 0..whole.len() {
        for change in [1, 2, 3, 128, 255] {
            let mut bytes = whole.clone();
            bytes[i] ^= change;
            cases.push(read_case(random, &bytes, Tables::with_rows(4)));
        }
    }
    for length in (0..=whole.len()).step_by(9) {
        cases.push(listing_call(&whole[..length]));
    }
}

/// All cases of a seed: so many rounds of each kind, and the deterministic ones once.
pub fn all(seed: u64, rounds: usize) -> Vec<Case> {
    let random = Random::new(seed);
    let mut cases = Vec::new();
    every_byte(&random, &mut cases);
    every_float(&random, &mut cases);
    every_large(&random, &mut cases);
    for round in 0..rounds {
        for call in MAKE..=PREV {
            (0..6).for_each(|_| cases.push(ring_case(&random, call)));
        }
        (0..12).for_each(|_| cases.push(check_case(&random)));
        (0..4).for_each(|_| cases.push(refine_case(&random, 400)));
        (0..12).for_each(|_| cases.push(move_case(&random, 400)));
        (0..4).for_each(|_| cases.push(float_case(&random)));
        (0..6).for_each(|_| cases.push(file_case(&random)));
        (0..6).for_each(|_| cases.push(write_case(&random)));
        cases.push(listing_case(&random));
        if round % 5 == 0 {
            cases.push(large_case(&random));
        }
        if round % 10 == 0 {
            cases.push(row_count_case(&random));
            cases.push(refine_case(&random, 8000));
            cases.push(move_case(&random, 8000));
        }
    }
    reshape_cases::all(&random, rounds, &mut cases);
    off_cases::all(&random, rounds, &mut cases);
    cases
}
