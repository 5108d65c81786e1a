//! Document 02, order 4: a mesh as OFF text, read and written.

use crate::calls::{check, good_count, Tables};
use crate::document::*;
use std::collections::BTreeMap;
use std::ops::RangeInclusive;

/// What counts and corners may be, and what units may be.
const COUNTS: RangeInclusive<i64> = 0..=4_294_967_295;
const UNITS: RangeInclusive<i64> = -2_147_483_648..=2_147_483_647;

/// The corners a, b, c of a face: next(a in b) = c.
pub type Face = [usize; 3];

/// A number that is written in the one way there is: no zeros or plus sign in front, no -0.
fn number(item: &str, bounds: &RangeInclusive<i64>) -> Option<i64> {
    let number: i64 = item.parse().ok()?;
    (number.to_string() == item && bounds.contains(&number)).then_some(number)
}

/// The numbers of a line that has just so many, with single blanks between them.
fn numbers<const N: usize>(line: &str, bounds: RangeInclusive<i64>) -> Option<[i64; N]> {
    let all: Option<Vec<i64>> = line.split(' ').map(|item| number(item, &bounds)).collect();
    all?.try_into().ok()
}

/// V and F, from the line that has E as well.
fn counts(line: &str) -> Option<(usize, usize)> {
    let [v, f, e] = numbers(line, COUNTS)?;
    (2 * e == 3 * f).then_some((v as usize, f as usize))
}

/// The face of a line, in a text of so many vertices.
fn face(line: &str, count: usize) -> Option<Face> {
    let [three, a, b, c] = numbers(line, COUNTS)?.map(|number: i64| number as usize);
    (three == 3 && a != b && b != c && c != a && a.max(b).max(c) < count).then_some([a, b, c])
}

/// The lines of a text that have not been read yet, and how many have.
struct Lines<'a> {
    rest: &'a [u8],
    read: usize,
}

impl<'a> Lines<'a> {
    /// The next line without its newline, if it has one.
    fn next(&mut self) -> Option<&'a str> {
        let end = self.rest.iter().position(|&byte| byte == b'\n')?;
        let line = &self.rest[..end];
        self.rest = &self.rest[end + 1..];
        std::str::from_utf8(line).ok()
    }

    /// What the next line says; 20 if it is not there, not ended, or says nothing of the kind.
    fn expect<T>(&mut self, meaning: impl Fn(&str) -> Option<T>) -> Result<T, Refusal> {
        self.read += 1;
        self.next().and_then(meaning).ok_or(Refusal { number: 20, place: self.read })
    }
}

/// The points and faces that a text lists, or 20.
fn listed(text: &[u8]) -> Result<(Vec<Point>, Vec<Face>), Refusal> {
    let mut lines = Lines { rest: text, read: 0 };
    lines.expect(|line| (line == "OFF").then_some(()))?;
    let (v, f) = lines.expect(counts)?;
    let (mut points, mut faces) = (vec![], vec![]);
    for _ in 0..v {
        points.push(lines.expect(|line| numbers(line, UNITS))?);
    }
    for _ in 0..f {
        faces.push(lines.expect(|line| face(line, v))?);
    }
    if !lines.rest.is_empty() {
        return refuse(20, lines.read + 1);
    }
    Ok((points, faces))
}

/// The steps at each vertex: for each of its faces from x to the neighbour that follows x there.
fn steps(faces: &[Face], count: usize) -> Vec<Vec<(usize, usize)>> {
    let mut all = vec![vec![]; count];
    for &[a, b, c] in faces {
        all[b].push((a, c));
        all[c].push((b, a));
        all[a].push((c, b));
    }
    all
}

/// The ring that steps make, from its smallest member on, if they are one circle without repeats; empty if there are none.
fn circle(steps: &[(usize, usize)]) -> Option<Vec<usize>> {
    let follows: BTreeMap<usize, usize> = steps.iter().copied().collect();
    let first = follows.keys().next().copied();
    let (mut ring, mut at) = (vec![], first);
    while let Some(x) = at.filter(|x| !ring.contains(x)) {
        ring.push(x);
        at = follows.get(&x).copied();
    }
    (at == first && ring.len() == steps.len()).then_some(ring)
}

pub fn read(text: &[u8], t: &mut Tables) -> Result<usize, Refusal> {
    let (points, faces) = listed(text)?;
    let count = points.len();
    if !good_count(count) {
        return refuse(2, 0);
    }
    if !t.rows(count) {
        return refuse(1, 0);
    }
    let mut rings = Vec::new();
    for (v, steps) in steps(&faces, count).iter().enumerate() {
        rings.push(circle(steps).ok_or(Refusal { number: 21, place: v })?);
    }
    if let Some(v) = rings.iter().position(|ring| !(3..=PLACES).contains(&ring.len())) {
        return refuse(4, v);
    }
    if let Some(v) = points.iter().position(|point| !in_range(point)) {
        return refuse(7, v);
    }
    for v in 0..count {
        t.set_ring(v, &rings[v]);
        t.set_point(v, points[v]);
    }
    Ok(count)
}

/// Each face of a sound mesh once, from its smallest corner on, in ascending order.
pub fn faces_of(rings: &[Vec<usize>]) -> Vec<Face> {
    let mut faces = Vec::new();
    for (b, ring) in rings.iter().enumerate() {
        faces.extend(ring.iter().map(|&a| [a, b, next(ring, a).unwrap()]));
    }
    faces.retain(|&[a, b, c]| a < b && a < c);
    faces.sort();
    faces
}

/// The text that lists points and faces.
pub fn text_of(points: &[Point], faces: &[Face]) -> String {
    let mut text = format!("OFF\n{} {} {}\n", points.len(), faces.len(), 3 * faces.len() / 2);
    points.iter().for_each(|[x, y, z]| text += &format!("{x} {y} {z}\n"));
    faces.iter().for_each(|[a, b, c]| text += &format!("3 {a} {b} {c}\n"));
    text
}

/// The text of the sound mesh in the first rows of the tables.
pub fn text_of_mesh(t: &Tables, count: usize) -> String {
    let (rings, points): (Vec<_>, Vec<_>) = (0..count).map(|v| (t.ring(v), t.point(v))).unzip();
    text_of(&points, &faces_of(&rings))
}

pub fn write(t: &Tables, count: usize, room: &mut [u8]) -> Result<usize, Refusal> {
    check(t, count)?;
    let text = text_of_mesh(t, count);
    if room.len() < text.len() {
        return refuse(10, 0);
    }
    room[..text.len()].copy_from_slice(text.as_bytes());
    Ok(text.len())
}
