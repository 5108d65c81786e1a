//! Document 01 on abstract meshes: rings, the check, refinement, rounding, moves of one point, touched points.
//! Written for the reader, with no thought of speed.

use std::collections::BTreeMap;

pub const NULL: u16 = 65_535;
pub const PLACES: usize = 32;
pub const FAR: i64 = 1_048_576;

pub type Point = [i64; 3];

#[derive(Clone)]
pub struct Mesh {
    pub rings: Vec<Vec<usize>>,
    pub points: Vec<Point>,
}

#[derive(Clone, Copy, PartialEq, Debug)]
pub struct Refusal {
    pub number: u32,
    pub place: usize,
}

pub fn refuse<T>(number: u32, place: usize) -> Result<T, Refusal> {
    Err(Refusal { number, place })
}

/// The member that stands `steps` after x in the circular list.
fn around(ring: &[usize], x: usize, steps: usize) -> Option<usize> {
    let i = ring.iter().position(|&y| y == x)?;
    Some(ring[(i + steps) % ring.len()])
}

pub fn next(ring: &[usize], x: usize) -> Option<usize> {
    around(ring, x, 1)
}

pub fn prev(ring: &[usize], x: usize) -> Option<usize> {
    around(ring, x, ring.len().max(1) - 1)
}

pub fn repeats(ring: &[usize]) -> bool {
    (0..ring.len()).any(|i| ring[..i].contains(&ring[i]))
}

/// Properness of a ring that is not longer than a row.
pub fn proper(ring: &[usize], v: usize, count: usize) -> bool {
    ring.iter().all(|&u| u < count && u != v) && !repeats(ring)
}

fn lowest(count: usize, bad: impl Fn(usize) -> bool) -> Option<usize> {
    (0..count).find(|&v| bad(v))
}

pub fn in_range(point: &Point) -> bool {
    point.iter().all(|c| (-FAR..=FAR).contains(c))
}

/// Reasons 5, 6 and 7 of a mesh whose rings are proper and of valence 3 or more.
pub fn check_proper_mesh(mesh: &Mesh) -> Result<(), Refusal> {
    let rings = &mesh.rings;
    let lacks = |v: usize| rings[v].iter().any(|&u| !rings[u].contains(&v));
    let open = |v: usize| {
        rings[v].iter().any(|&u| {
            let w = next(&rings[v], u).unwrap();
            next(&rings[w], v) != Some(u) || next(&rings[u], w) != Some(v)
        })
    };
    if let Some(v) = lowest(rings.len(), lacks) {
        return refuse(5, v);
    }
    if let Some(v) = lowest(rings.len(), open) {
        return refuse(6, v);
    }
    if let Some(v) = lowest(rings.len(), |v| !in_range(&mesh.points[v])) {
        return refuse(7, v);
    }
    Ok(())
}

pub fn edge_count(rings: &[Vec<usize>]) -> usize {
    rings.iter().map(Vec::len).sum::<usize>() / 2
}

/// n / d to the nearest whole number, halves to the even one.
pub fn rounded(n: i128, d: i128) -> i64 {
    let (down, rest) = (n.div_euclid(d), 2 * n.rem_euclid(d));
    let up = rest > d || rest == d && down % 2 != 0;
    (down + up as i128) as i64
}

/// The edges p < q by p, then by q: the order in which new vertices are numbered.
pub fn edges(rings: &[Vec<usize>]) -> Vec<(usize, usize)> {
    let mut all = Vec::new();
    for (p, ring) in rings.iter().enumerate() {
        let mut greater: Vec<usize> = ring.iter().copied().filter(|&q| q > p).collect();
        greater.sort();
        all.extend(greater.into_iter().map(|q| (p, q)));
    }
    all
}

/// The two vertices beside an edge: a = next(q in p), b = prev(q in p).
pub fn beside(rings: &[Vec<usize>], (p, q): (usize, usize)) -> (usize, usize) {
    (next(&rings[p], q).unwrap(), prev(&rings[p], q).unwrap())
}

pub fn refined_rings(rings: &[Vec<usize>]) -> Vec<Vec<usize>> {
    let edges = edges(rings);
    let number: BTreeMap<(usize, usize), usize> =
        edges.iter().enumerate().map(|(i, &edge)| (edge, rings.len() + i)).collect();
    let m = |u: usize, v: usize| number[&(u.min(v), u.max(v))];
    let mut above = Vec::new();
    for (v, ring) in rings.iter().enumerate() {
        above.push(ring.iter().map(|&u| m(v, u)).collect());
    }
    for &(p, q) in &edges {
        let (a, b) = beside(rings, (p, q));
        above.push(vec![p, m(p, b), m(q, b), q, m(q, a), m(p, a)]);
    }
    above
}

pub fn refined_points(rings: &[Vec<usize>], points: &[Point]) -> Vec<Point> {
    let mut above = Vec::new();
    for (v, ring) in rings.iter().enumerate() {
        let n = ring.len() as i128;
        above.push([0, 1, 2].map(|c| {
            let here = points[v][c] as i128;
            let s: i128 = ring.iter().map(|&u| points[u][c] as i128).sum();
            if n == 3 { rounded(7 * here + 3 * s, 16) } else { rounded(5 * n * here + 3 * s, 8 * n) }
        }));
    }
    for (p, q) in edges(rings) {
        let (a, b) = beside(rings, (p, q));
        above.push([0, 1, 2].map(|c| {
            let at = |v: usize| points[v][c] as i128;
            rounded(3 * (at(p) + at(q)) + at(a) + at(b), 8)
        }));
    }
    above
}

/// Which vertices of the next level are touched, given which are touched in this one.
pub fn touched_above(rings: &[Vec<usize>], touched: &[bool]) -> Vec<bool> {
    let mut above: Vec<bool> =
        rings.iter().enumerate().map(|(v, ring)| touched[v] || ring.iter().any(|&u| touched[u])).collect();
    for (p, q) in edges(rings) {
        let (a, b) = beside(rings, (p, q));
        above.push(touched[p] || touched[q] || touched[a] || touched[b]);
    }
    above
}

#[derive(Clone, Copy)]
pub struct Move {
    pub vertex: u32,
    pub kind: u32,
    pub numbers: [f64; 3],
}

/// A float of at most 1024.0 either way, times 1,024, rounded; exactly, from its bits.
pub fn units(millimetres: f64) -> i64 {
    let bits = millimetres.to_bits();
    let field = (bits >> 52 & 0x7ff) as i32;
    let digits = (bits & ((1 << 52) - 1)) as i128 | if field > 0 { 1 << 52 } else { 0 };
    let signed = if bits >> 63 == 1 { -digits } else { digits };
    let shift = 1075 - field.max(1) - 10;
    if shift > 100 {
        return 0;
    }
    rounded(signed, 1i128 << shift)
}

/// Where a move leads from a point; the reasons 13 and 14.
pub fn moved(here: Point, change: &Move) -> Result<Point, u32> {
    if change.numbers.iter().any(|number| !number.is_finite()) {
        return Err(13);
    }
    let result = [0, 1, 2].map(|c| {
        let now = here[c] as f64 / 1024.0;
        match change.kind {
            0 => change.numbers[c],
            1 => now + change.numbers[c],
            _ => now * change.numbers[c],
        }
    });
    if result.iter().any(|number| !(-1024.0..=1024.0).contains(number)) {
        return Err(14);
    }
    Ok(result.map(units))
}
