//! Every call on lent tables: its refusals in order, its answer, what it writes.

use crate::document::*;

/// The three lent tables; ring calls look at the first two only.
#[derive(Clone, Default, PartialEq)]
pub struct Tables {
    pub valences: Vec<u16>,
    pub rings: Vec<u16>,
    pub positions: Vec<i32>,
}

pub type Counts = (usize, usize, usize);

impl Tables {
    pub fn ring(&self, v: usize) -> Vec<usize> {
        self.rings[PLACES * v..][..self.valences[v] as usize].iter().map(|&u| u as usize).collect()
    }

    pub fn point(&self, v: usize) -> Point {
        [0, 1, 2].map(|c| self.positions[3 * v + c] as i64)
    }

    pub fn set_ring(&mut self, v: usize, ring: &[usize]) {
        self.valences[v] = ring.len() as u16;
        for i in 0..PLACES {
            self.rings[PLACES * v + i] = ring.get(i).map_or(NULL, |&u| u as u16);
        }
    }

    pub fn set_point(&mut self, v: usize, point: Point) {
        for c in 0..3 {
            self.positions[3 * v + c] = point[c] as i32;
        }
    }

    pub fn with_rows(count: usize) -> Tables {
        Tables { valences: vec![0; count], rings: vec![NULL; PLACES * count], positions: vec![0; 3 * count] }
    }

    fn ring_rows(&self, count: usize) -> bool {
        self.valences.len() >= count && self.rings.len() >= PLACES * count
    }

    pub fn rows(&self, count: usize) -> bool {
        self.ring_rows(count) && self.positions.len() >= 3 * count
    }

    fn level(&self, start: usize, count: usize) -> Mesh {
        let rows = start..start + count;
        Mesh { rings: rows.clone().map(|v| self.ring(v)).collect(), points: rows.map(|v| self.point(v)).collect() }
    }

    fn proper_row(&self, v: usize, count: usize) -> bool {
        self.valences[v] as usize <= PLACES && proper(&self.ring(v), v, count)
    }
}

pub fn good_count(count: usize) -> bool {
    (4..=1024).contains(&count)
}

pub fn check(t: &Tables, count: usize) -> Result<Counts, Refusal> {
    if !good_count(count) {
        return refuse(2, 0);
    }
    if !t.rows(count) {
        return refuse(1, 0);
    }
    if let Some(v) = (0..count).find(|&v| t.valences[v] < 3 || !t.proper_row(v, count)) {
        return refuse(4, v);
    }
    let mesh = t.level(0, count);
    check_proper_mesh(&mesh)?;
    let e = edge_count(&mesh.rings);
    Ok((count, e, 2 * e / 3))
}

/// The number of vertices of levels 0 to L, or reason 9.
fn level_counts((v, e, _): Counts, levels: usize) -> Result<Vec<usize>, Refusal> {
    let mut counts = vec![v];
    for k in 1..=levels {
        let count = counts[k - 1] + (e << (2 * (k - 1)));
        if count > 65_535 {
            return refuse(9, k);
        }
        counts.push(count);
    }
    Ok(counts)
}

/// What refining and moving judge first, in order: 8, the check, 9; the vertices of each level and the control's E, F.
fn judge(t: &Tables, count: usize, levels: usize) -> Result<(Vec<usize>, usize, usize), Refusal> {
    if !(1..=4).contains(&levels) {
        return refuse(8, 0);
    }
    let control = check(t, count)?;
    Ok((level_counts(control, levels)?, control.1, control.2))
}

pub fn refine(t: &mut Tables, count: usize, levels: usize) -> Result<Counts, Refusal> {
    let (counts, e, f) = judge(t, count, levels)?;
    if !t.rows(counts.iter().sum()) {
        return refuse(10, 0);
    }
    let mut mesh = t.level(0, count);
    let mut start = count;
    for k in 1..=levels {
        mesh = Mesh { points: refined_points(&mesh.rings, &mesh.points), rings: refined_rings(&mesh.rings) };
        for x in 0..counts[k] {
            t.set_ring(start + x, &mesh.rings[x]);
            t.set_point(start + x, mesh.points[x]);
        }
        start += counts[k];
    }
    Ok((counts[levels], e << (2 * levels), f << (2 * levels)))
}

/// The rings of levels 0 to L as refinement gives them.
fn stack_rings(t: &Tables, counts: &[usize]) -> Vec<Vec<Vec<usize>>> {
    let mut levels = vec![t.level(0, counts[0]).rings];
    for k in 1..counts.len() {
        levels.push(refined_rings(&levels[k - 1]));
    }
    levels
}

/// The lowest stack vertex above level 0 that is not as it may be.
fn altered(t: &Tables, levels: &[Vec<Vec<usize>>]) -> Option<usize> {
    let mut i = levels[0].len();
    for rings in &levels[1..] {
        for ring in rings {
            if t.valences[i] as usize != ring.len() || t.ring(i) != *ring || !in_range(&t.point(i)) {
                return Some(i);
            }
            i += 1;
        }
    }
    None
}

/// Where the moves lead, in order, from the control points as they are; nothing is written.
fn walk(t: &Tables, count: usize, moves: &[Move]) -> Result<(Vec<Point>, Vec<bool>), Refusal> {
    let mut points: Vec<Point> = (0..count).map(|v| t.point(v)).collect();
    let mut named = vec![false; count];
    for (i, change) in moves.iter().enumerate() {
        if change.kind > 2 {
            return refuse(99, i);
        }
        let v = change.vertex as usize;
        if v >= count {
            return refuse(3, i);
        }
        match moved(points[v], change) {
            Ok(point) => points[v] = point,
            Err(number) => return refuse(number, i),
        }
        named[v] = true;
    }
    Ok((points, named))
}

pub fn moves(t: &mut Tables, map: &mut [u32], count: usize, levels: usize, list: &[Move]) -> Result<usize, Refusal> {
    let (counts, _, _) = judge(t, count, levels)?;
    let total: usize = counts.iter().sum();
    let words = (total + 31) / 32;
    if !t.rows(total) || map.len() < words {
        return refuse(10, 0);
    }
    let rings = stack_rings(t, &counts);
    if let Some(i) = altered(t, &rings) {
        return refuse(11, i);
    }
    if list.len() > 64 {
        return refuse(12, 0);
    }
    let (mut points, mut touched) = walk(t, count, list)?;
    let mut all: Vec<bool> = touched.clone();
    (0..count).filter(|&v| touched[v]).for_each(|v| t.set_point(v, points[v]));
    for k in 1..=levels {
        let start = all.len();
        let set = refined_points(&rings[k - 1], &points);
        touched = touched_above(&rings[k - 1], &touched);
        (0..counts[k]).filter(|&x| touched[x]).for_each(|x| t.set_point(start + x, set[x]));
        points = (0..counts[k]).map(|x| t.point(start + x)).collect();
        all.extend(&touched);
    }
    for (w, word) in map[..words].iter_mut().enumerate() {
        *word = (0..32).filter(|&b| *all.get(32 * w + b).unwrap_or(&false)).map(|b| 1 << b).sum();
    }
    Ok(all.iter().filter(|&&touched| touched).count())
}

/// What ring calls refuse first; a make does not look at the ring that it replaces.
fn judge_ring(t: &Tables, count: usize, v: usize, look: bool) -> Result<(), Refusal> {
    if !good_count(count) {
        return refuse(2, 0);
    }
    if !t.ring_rows(count) {
        return refuse(1, 0);
    }
    if v >= count {
        return refuse(3, 0);
    }
    if look && !t.proper_row(v, count) {
        return refuse(4, v);
    }
    Ok(())
}

pub fn make(t: &mut Tables, count: usize, v: usize, list: &[usize]) -> Result<(), Refusal> {
    judge_ring(t, count, v, false)?;
    if list.len() > PLACES {
        return refuse(16, 0);
    }
    if let Some(i) = list.iter().position(|&u| u >= count) {
        return refuse(3, i);
    }
    if list.contains(&v) || repeats(list) {
        return refuse(15, 0);
    }
    t.set_ring(v, list);
    Ok(())
}

pub fn erase(t: &mut Tables, count: usize, v: usize, x: usize) -> Result<(), Refusal> {
    judge_ring(t, count, v, true)?;
    let mut ring = t.ring(v);
    if let Some(i) = ring.iter().position(|&u| u == x) {
        ring.remove(i);
        t.set_ring(v, &ring);
    }
    Ok(())
}

/// The edits that bring x into the ring beside a, or in its place.
#[derive(Clone, Copy, PartialEq)]
pub enum Bring {
    Replace,
    After,
    Before,
}

pub fn bring(t: &mut Tables, how: Bring, count: usize, v: usize, a: usize, x: usize) -> Result<(), Refusal> {
    judge_ring(t, count, v, true)?;
    let mut ring = t.ring(v);
    if x >= count {
        return refuse(3, 0);
    }
    if x == v || ring.contains(&x) {
        return refuse(15, 0);
    }
    let i = match ring.iter().position(|&u| u == a) {
        Some(i) => i,
        None => return Ok(()),
    };
    if how != Bring::Replace && ring.len() == PLACES {
        return refuse(16, 0);
    }
    match how {
        Bring::Replace => ring[i] = x,
        Bring::After => ring.insert(i + 1, x),
        Bring::Before => ring.insert(i, x),
    }
    t.set_ring(v, &ring);
    Ok(())
}

pub fn ring_of(t: &Tables, count: usize, v: usize) -> Result<Vec<usize>, Refusal> {
    judge_ring(t, count, v, true)?;
    Ok(t.ring(v))
}

/// A file's records, and the place reached.
struct Records<'a> {
    bytes: &'a [u8],
    at: usize,
}

fn little_endian(bytes: &[u8]) -> usize {
    bytes.iter().rev().fold(0, |number, &byte| 256 * number + byte as usize)
}

impl<'a> Records<'a> {
    /// The payload of the next record if it is whole and of this kind; otherwise 17 at its first byte.
    fn expect(&mut self, kind: usize) -> Result<&'a [u8], Refusal> {
        let rest = &self.bytes[self.at..];
        if rest.len() < 6 {
            return refuse(17, self.at);
        }
        let length = little_endian(&rest[..4]);
        if length > rest.len() - 6 || little_endian(&rest[4..6]) != kind {
            return refuse(17, self.at);
        }
        self.at += 6 + length;
        Ok(&rest[6..6 + length])
    }
}

/// Whether a kind 2 payload has its valence and its length right.
fn good_row(payload: &[u8]) -> bool {
    payload.len() >= 14 && {
        let n = little_endian(&payload[12..14]);
        n <= 32 && payload.len() == 14 + 2 * n
    }
}

/// The payloads of a file's rows, or 17.
fn rows_of(bytes: &[u8]) -> Result<Vec<&[u8]>, Refusal> {
    let mut records = Records { bytes, at: 0 };
    let first = records.expect(1)?;
    if first.len() != 2 {
        return refuse(17, 0);
    }
    let mut rows = Vec::new();
    for _ in 0..little_endian(first) {
        let at = records.at;
        let payload = records.expect(2)?;
        if !good_row(payload) {
            return refuse(17, at);
        }
        rows.push(payload);
    }
    let at = records.at;
    if !records.expect(3)?.is_empty() {
        return refuse(17, at);
    }
    if records.at < bytes.len() {
        return refuse(17, records.at);
    }
    Ok(rows)
}

pub fn read(bytes: &[u8], t: &mut Tables) -> Result<usize, Refusal> {
    let rows = rows_of(bytes)?;
    if !good_count(rows.len()) {
        return refuse(2, 0);
    }
    if !t.rows(rows.len()) {
        return refuse(1, 0);
    }
    for (v, row) in rows.iter().enumerate() {
        t.set_point(v, [0, 4, 8].map(|i| little_endian(&row[i..i + 4]) as u32 as i32 as i64));
        let ring: Vec<usize> = row[14..].chunks(2).map(little_endian).collect();
        t.set_ring(v, &ring);
    }
    Ok(rows.len())
}

pub fn record(kind: u16, payload: &[u8]) -> Vec<u8> {
    let mut bytes = (payload.len() as u32).to_le_bytes().to_vec();
    bytes.extend(kind.to_le_bytes());
    bytes.extend(payload);
    bytes
}

/// The kind 2 record of a vertex.
pub fn row_record(point: Point, ring: &[usize]) -> Vec<u8> {
    let mut payload = Vec::new();
    point.iter().for_each(|&c| payload.extend((c as i32).to_le_bytes()));
    payload.extend((ring.len() as u16).to_le_bytes());
    ring.iter().for_each(|&u| payload.extend((u as u16).to_le_bytes()));
    record(2, &payload)
}

/// The mesh file of the first rows of the tables, whose valences are at most 32.
pub fn file_of(t: &Tables, count: usize) -> Vec<u8> {
    let mut bytes = record(1, &(count as u16).to_le_bytes());
    (0..count).for_each(|v| bytes.extend(row_record(t.point(v), &t.ring(v))));
    bytes.extend(record(3, &[]));
    bytes
}

pub fn write(t: &Tables, count: usize, room: &mut [u8]) -> Result<usize, Refusal> {
    if !good_count(count) {
        return refuse(2, 0);
    }
    if !t.rows(count) {
        return refuse(1, 0);
    }
    if let Some(v) = (0..count).find(|&v| t.valences[v] > 32) {
        return refuse(4, v);
    }
    let bytes = file_of(t, count);
    if room.len() < bytes.len() {
        return refuse(10, 0);
    }
    room[..bytes.len()].copy_from_slice(&bytes);
    Ok(bytes.len())
}

/// What the listing program prints for an input.
pub fn listing(input: &[u8]) -> String {
    let mut t = Tables::with_rows(256);
    let answer = if input.len() > 16_384 { refuse(10, 0) } else { read(input, &mut t) };
    match answer.and_then(|count| Ok((count, refine(&mut t, count, 1)?))) {
        Err(refusal) => format!("refused {} {}\n", refusal.number, refusal.place),
        Ok((count, (v, e, f))) => {
            let mut text = format!("1 {v} {e} {f}\n");
            for x in 0..v {
                let [a, b, c] = t.point(count + x);
                text += &format!("{x} {a} {b} {c} {}\n", t.valences[count + x]);
            }
            text
        }
    }
}
