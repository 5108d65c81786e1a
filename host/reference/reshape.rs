//! Document 02, order 1: an edge or a face is split, an edge is flipped. First on abstract rings, then on lent tables.

use crate::calls::{check, Counts, Tables};
use crate::document::*;

/// The ring with x put right after a member.
fn put_after(ring: &[usize], member: usize, x: usize) -> Vec<usize> {
    ring.iter().flat_map(|&u| if u == member { vec![u, x] } else { vec![u] }).collect()
}

/// The ring with x in a member's place.
fn put_for(ring: &[usize], member: usize, x: usize) -> Vec<usize> {
    ring.iter().map(|&u| if u == member { x } else { u }).collect()
}

/// The ring without a member.
fn without(ring: &[usize], member: usize) -> Vec<usize> {
    ring.iter().copied().filter(|&u| u != member).collect()
}

/// What an edit writes: vertices with their rings.
type Rows = Vec<(usize, Vec<usize>)>;

/// Vertex x comes between p and q: its own ring is p, b, q, a.
fn edge_split(rings: &[Vec<usize>], (p, q): (usize, usize), x: usize) -> Rows {
    let (a, b) = beside(rings, (p, q));
    vec![
        (p, put_for(&rings[p], q, x)),
        (q, put_for(&rings[q], p, x)),
        (a, put_after(&rings[a], p, x)),
        (b, put_after(&rings[b], q, x)),
        (x, vec![p, b, q, a]),
    ]
}

/// Which of two neighbours that stand side by side in a ring comes first there.
fn first_of(ring: &[usize], one: usize, other: usize) -> usize {
    if next(ring, one) == Some(other) { one } else { other }
}

/// Vertex x comes into the face u, v, w, of which u is the smallest corner: its own ring is u, w, v.
fn face_split(rings: &[Vec<usize>], [u, v, w]: [usize; 3], x: usize) -> Rows {
    let corner = |c: usize, one: usize, other: usize| (c, put_after(&rings[c], first_of(&rings[c], one, other), x));
    vec![corner(u, v, w), corner(v, w, u), corner(w, u, v), (x, vec![u, w, v])]
}

/// Vertices a and b are joined instead of p and q.
fn flipped(rings: &[Vec<usize>], (p, q): (usize, usize)) -> Rows {
    let (a, b) = beside(rings, (p, q));
    vec![
        (p, without(&rings[p], q)),
        (q, without(&rings[q], p)),
        (a, put_after(&rings[a], p, b)),
        (b, put_after(&rings[b], q, a)),
    ]
}

/// The rounded mean of some points.
fn mean(points: &[Point]) -> Point {
    [0, 1, 2].map(|c| rounded(points.iter().map(|point| point[c] as i128).sum(), points.len() as i128))
}

/// What all edits judge first: the check, and 3 for the vertices that are named. Answers the rings.
fn judge(t: &Tables, count: usize, named: &[usize]) -> Result<Vec<Vec<usize>>, Refusal> {
    check(t, count)?;
    if named.iter().any(|&v| v >= count) {
        return refuse(3, 0);
    }
    Ok((0..count).map(|v| t.ring(v)).collect())
}

/// The rings and the edge p < q that is named from either end, or 18.
fn judge_edge(t: &Tables, count: usize, u: usize, v: usize) -> Result<(Vec<Vec<usize>>, (usize, usize)), Refusal> {
    let rings = judge(t, count, &[u, v])?;
    if !rings[u].contains(&v) {
        return refuse(18, 0);
    }
    Ok((rings, (u.min(v), u.max(v))))
}

/// Whether one of these rings could not take a neighbour more.
fn any_full(rings: &[Vec<usize>], vertices: &[usize]) -> bool {
    vertices.iter().any(|&v| rings[v].len() == PLACES)
}

/// Writes rows, and answers the counts of the mesh, which is sound.
fn write(t: &mut Tables, rows: Rows, count: usize) -> Counts {
    rows.iter().for_each(|(v, ring)| t.set_ring(*v, ring));
    check(t, count).expect("an edit keeps the mesh sound")
}

/// Writes what a split gives, if 16 and 10 allow it: the new vertex stands at the mean of the corners.
fn split(t: &mut Tables, count: usize, full: bool, corners: &[usize], rows: Rows) -> Result<Counts, Refusal> {
    if full || count == 1024 {
        return refuse(16, 0);
    }
    if !t.rows(count + 1) {
        return refuse(10, 0);
    }
    let points: Vec<Point> = corners.iter().map(|&v| t.point(v)).collect();
    t.set_point(count, mean(&points));
    Ok(write(t, rows, count + 1))
}

pub fn split_edge(t: &mut Tables, count: usize, u: usize, v: usize) -> Result<Counts, Refusal> {
    let (rings, (p, q)) = judge_edge(t, count, u, v)?;
    let (a, b) = beside(&rings, (p, q));
    split(t, count, any_full(&rings, &[a, b]), &[p, q], edge_split(&rings, (p, q), count))
}

pub fn split_face(t: &mut Tables, count: usize, named: [usize; 3]) -> Result<Counts, Refusal> {
    let rings = judge(t, count, &named)?;
    let [u, v, w] = named;
    if next(&rings[v], u) != Some(w) {
        return refuse(18, 0);
    }
    let face = *[[u, v, w], [v, w, u], [w, u, v]].iter().min().unwrap();
    split(t, count, any_full(&rings, &face), &face, face_split(&rings, face, count))
}

pub fn flip(t: &mut Tables, count: usize, u: usize, v: usize) -> Result<Counts, Refusal> {
    let (rings, (p, q)) = judge_edge(t, count, u, v)?;
    let (a, b) = beside(&rings, (p, q));
    if any_full(&rings, &[a, b]) {
        return refuse(16, 0);
    }
    if rings[p].len() == 3 || rings[q].len() == 3 || rings[a].contains(&b) {
        return refuse(19, 0);
    }
    Ok(write(t, flipped(&rings, (p, q)), count))
}
