//! Sound meshes of many kinds, as lists of triangles wound the same way, and their tables.

use crate::calls::Tables;
use crate::document::*;
use crate::random::Random;
use std::collections::{HashMap, HashSet};

pub type Triangle = [usize; 3];

/// A closed surface: the triangle a, b, c says that c follows b in the ring of a.
#[derive(Clone)]
pub struct Surface {
    pub count: usize,
    pub faces: Vec<Triangle>,
}

pub fn tetrahedron() -> Surface {
    Surface { count: 4, faces: vec![[0, 1, 2], [0, 2, 3], [0, 3, 1], [1, 3, 2]] }
}

/// Two tips over a circle of n vertices; 4 of them make the octahedron, 32 the greatest valence.
pub fn double_cone(n: usize) -> Surface {
    let ring = |i: usize| 1 + i % n;
    let faces = (0..n).flat_map(|i| [[0, ring(i), ring(i + 1)], [n + 1, ring(i + 1), ring(i)]]).collect();
    Surface { count: n + 2, faces }
}

pub fn icosahedron() -> Surface {
    let upper = |i: usize| 1 + i % 5;
    let lower = |i: usize| 6 + i % 5;
    let around = |i: usize| {
        [
            [0, upper(i), upper(i + 1)],
            [upper(i + 1), upper(i), lower(i)],
            [upper(i + 1), lower(i), lower(i + 1)],
            [11, lower(i + 1), lower(i)],
        ]
    };
    Surface { count: 12, faces: (0..5).flat_map(around).collect() }
}

/// A torus of m times n vertices, all of valence 6; m and n at least 3.
pub fn torus(m: usize, n: usize) -> Surface {
    let at = |i: usize, j: usize| i % m * n + j % n;
    let faces = (0..m * n)
        .flat_map(|k| {
            let (i, j) = (k / n, k % n);
            [[at(i, j), at(i + 1, j), at(i + 1, j + 1)], [at(i, j), at(i + 1, j + 1), at(i, j + 1)]]
        })
        .collect();
    Surface { count: m * n, faces }
}

/// The torus of seven vertices, each next to all others.
pub fn smallest_torus() -> Surface {
    let faces = (0..7).flat_map(|i| [[i, (i + 1) % 7, (i + 3) % 7], [i, (i + 3) % 7, (i + 2) % 7]]).collect();
    Surface { count: 7, faces }
}

/// A globe: two tips and `bands` circles of n vertices.
pub fn globe(bands: usize, n: usize) -> Surface {
    let at = |band: usize, i: usize| 2 + band * n + i % n;
    let mut faces = Vec::new();
    for i in 0..n {
        faces.push([0, at(0, i), at(0, i + 1)]);
        faces.push([1, at(bands - 1, i + 1), at(bands - 1, i)]);
        for band in 0..bands - 1 {
            faces.push([at(band, i + 1), at(band, i), at(band + 1, i)]);
            faces.push([at(band, i + 1), at(band + 1, i), at(band + 1, i + 1)]);
        }
    }
    Surface { count: 2 + bands * n, faces }
}

pub fn both(one: &Surface, other: &Surface) -> Surface {
    let mut faces = one.faces.clone();
    faces.extend(other.faces.iter().map(|face| face.map(|v| v + one.count)));
    Surface { count: one.count + other.count, faces }
}

/// What a change needs to know: the face on the left of each directed edge, and the valences.
struct Index {
    left: HashMap<(usize, usize), usize>,
    valence: Vec<usize>,
}

impl Surface {
    fn index(&self) -> Index {
        let mut left = HashMap::new();
        let mut valence = vec![0; self.count];
        for (i, &[a, b, c]) in self.faces.iter().enumerate() {
            for (u, v) in [(a, b), (b, c), (c, a)] {
                left.insert((u, v), i);
                valence[u] += 1;
            }
        }
        Index { left, valence }
    }

    fn third(&self, face: usize, u: usize, v: usize) -> usize {
        *self.faces[face].iter().find(|&&w| w != u && w != v).unwrap()
    }

    /// Turns random edges round in the two triangles beside them, keeping the mesh simple and valences from 3 to 32.
    pub fn flip(&mut self, random: &Random, times: usize) {
        let Index { mut left, mut valence } = self.index();
        for _ in 0..times {
            let face = random.below(self.faces.len());
            let corner = random.below(3);
            let (u, v) = (self.faces[face][corner], self.faces[face][(corner + 1) % 3]);
            let other = left[&(v, u)];
            let (w, x) = (self.third(face, u, v), self.third(other, u, v));
            if w == x || left.contains_key(&(w, x)) || valence[u] < 4 || valence[v] < 4 || valence[w].max(valence[x]) > 31
            {
                continue;
            }
            left.remove(&(u, v));
            left.remove(&(v, u));
            self.faces[face] = [w, u, x];
            self.faces[other] = [x, v, w];
            for (i, [a, b, c]) in [(face, [w, u, x]), (other, [x, v, w])] {
                left.extend([((a, b), i), ((b, c), i), ((c, a), i)]);
            }
            valence[u] -= 1;
            valence[v] -= 1;
            valence[w] += 1;
            valence[x] += 1;
        }
    }

    /// Puts a vertex of valence 3 into a face.
    pub fn split_face(&mut self, face: usize) {
        let [a, b, c] = self.faces[face];
        let x = self.count;
        self.faces[face] = [a, b, x];
        self.faces.extend([[b, c, x], [c, a, x]]);
        self.count += 1;
    }

    /// Splits random faces whose corners have room for one more neighbour.
    pub fn split(&mut self, random: &Random, times: usize) {
        let mut valence = self.index().valence;
        for _ in 0..times {
            let face = random.below(self.faces.len());
            if self.faces[face].iter().all(|&v| valence[v] < 32) {
                self.faces[face].iter().for_each(|&v| valence[v] += 1);
                valence.push(3);
                self.split_face(face);
            }
        }
    }

    /// Joins two faces that have no edge between them by a tube of six triangles: one handle more, or two components
    /// become one.
    pub fn tube(&mut self, random: &Random) {
        let Index { left, valence } = self.index();
        for _ in 0..20 {
            let (i, j) = (random.below(self.faces.len()), random.below(self.faces.len()));
            let ([a, b, c], [d, e, f]) = (self.faces[i], self.faces[j]);
            let apart = [a, b, c].iter().all(|&u| [d, e, f].iter().all(|&v| u != v && !left.contains_key(&(u, v))));
            if !apart || [a, b, c, d, e, f].iter().any(|&v| valence[v] > 29) {
                continue;
            }
            self.faces[i] = [a, b, d];
            self.faces[j] = [b, f, d];
            self.faces.extend([[b, c, f], [c, e, f], [c, a, e], [a, d, e]]);
            return;
        }
    }

    pub fn renumber(&mut self, random: &Random) {
        let mut number: Vec<usize> = (0..self.count).collect();
        random.shuffle(&mut number);
        self.faces.iter_mut().for_each(|face| *face = face.map(|v| number[v]));
    }

    /// The rings, each beginning anywhere.
    pub fn rings(&self, random: &Random) -> Vec<Vec<usize>> {
        let mut follows = vec![HashMap::new(); self.count];
        for &[a, b, c] in &self.faces {
            follows[a].insert(b, c);
            follows[b].insert(c, a);
            follows[c].insert(a, b);
        }
        let ring = |next: &HashMap<usize, usize>, skip: usize| {
            let mut members: Vec<usize> = next.keys().copied().collect();
            members.sort();
            let first = members[skip % members.len()];
            let mut ring = vec![first];
            while next[ring.last().unwrap()] != first {
                ring.push(next[ring.last().unwrap()]);
            }
            ring
        };
        follows.iter().map(|next| ring(next, random.below(32))).collect()
    }

    /// Whether every vertex has at least three neighbours in one ring of at most 32, and no two edges join the same ends.
    pub fn simple(&self) -> bool {
        let mut seen = HashSet::new();
        let edges = self.faces.iter().flat_map(|&[a, b, c]| [(a, b), (b, c), (c, a)]);
        edges.clone().all(|edge| seen.insert(edge))
            && edges.clone().all(|(u, v)| seen.contains(&(v, u)))
            && self.index().valence.iter().all(|n| (3..=32).contains(n))
    }
}

/// A random surface of about `size` vertices.
pub fn any_surface(random: &Random, size: usize) -> Surface {
    let side = (size as f64).sqrt() as usize;
    let mut surface = match random.below(9) {
        0 => tetrahedron(),
        1 => double_cone(4),
        2 => icosahedron(),
        3 => torus(side.max(3), side.max(3)),
        4 => smallest_torus(),
        5 => double_cone(random.between(3, 32) as usize),
        6 => globe((size / 8).max(1), 8),
        7 => both(&tetrahedron(), &icosahedron()),
        _ => both(&torus(3, 3 + random.below(4)), &globe(3, 5)),
    };
    if random.once_in(3) && surface.count < size {
        surface.tube(random);
    }
    if surface.count < size && random.below(4) > 0 {
        let more = random.below(size - surface.count + 1);
        surface.split(random, more);
    }
    if random.below(4) > 0 {
        let times = random.below(6 * surface.count);
        surface.flip(random, times);
    }
    if random.below(4) > 0 {
        surface.renumber(random);
    }
    assert!(surface.simple());
    surface
}

/// A coordinate, in one of several manners that a whole mesh has in common.
fn coordinate(random: &Random, manner: usize) -> i64 {
    match manner {
        0 => random.between(-3, 3),
        1 => random.between(-FAR, FAR),
        2 => random.pick(&[-FAR, FAR]),
        3 => random.between(-2000, 2000),
        4 => random.pick(&[-FAR, -FAR + 1, -1, 0, 1, FAR - 1, FAR]),
        _ => FAR,
    }
}

/// The tables of a surface, with room for `rows` vertices; spare places hold what must not be read.
pub fn tables(random: &Random, surface: &Surface, rows: usize) -> Tables {
    let mut t = Tables::with_rows(rows.max(surface.count));
    let junk = random.below(3);
    t.rings.iter_mut().for_each(|place| *place = [NULL, 0, random.bits() as u16][junk]);
    t.valences.iter_mut().for_each(|valence| *valence = [0, 7, random.bits() as u16][junk]);
    t.positions.iter_mut().for_each(|c| *c = [0, i32::MIN, random.bits() as i32][junk]);
    let manner = random.below(6);
    for (v, ring) in surface.rings(random).iter().enumerate() {
        t.valences[v] = ring.len() as u16;
        ring.iter().enumerate().for_each(|(i, &u)| t.rings[PLACES * v + i] = u as u16);
        t.set_point(v, [0, 1, 2].map(|_| coordinate(random, manner)));
    }
    t
}
