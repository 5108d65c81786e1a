//! The small meshes of document 01 with the answers that it and orders 1 and 4 give, held against the reference itself.

use crate::calls::{self, Tables};
use crate::document::*;
use crate::off;
use crate::reshape;

fn mesh(rings: &[&[usize]], points: &[Point], rows: usize) -> Tables {
    let mut t = Tables::with_rows(rows);
    for v in 0..rings.len() {
        t.set_ring(v, rings[v]);
        t.set_point(v, points[v]);
    }
    t
}

pub fn tetrahedron(rows: usize) -> Tables {
    let points = [[0, 0, 0], [1024, 0, 0], [0, 1024, 0], [0, 0, 1024]];
    mesh(&[&[1, 2, 3], &[0, 3, 2], &[0, 1, 3], &[0, 2, 1]], &points, rows)
}

pub fn octahedron(rows: usize) -> Tables {
    let rings: [&[usize]; 6] = [&[1, 2, 3, 4], &[0, 4, 5, 2], &[0, 1, 5, 3], &[0, 2, 5, 4], &[0, 3, 5, 1], &[1, 4, 3, 2]];
    mesh(&rings, &[[0, 0, 0]; 6], rows)
}

fn place(vertex: u32, x: f64) -> Move {
    Move { vertex, kind: 0, numbers: [x, 0.0, 0.0] }
}

fn meshes() {
    let mut t = tetrahedron(14);
    assert_eq!(calls::check(&t, 4), Ok((4, 6, 4)));
    assert_eq!(calls::refine(&mut t, 4, 1), Ok((10, 24, 16)));
    assert_eq!(t.ring(4 + 1), [4, 8, 7]);
    assert_eq!(t.ring(4 + 4), [0, 6, 8, 1, 7, 5]);
    assert_eq!(t.ring(4 + 9), [2, 7, 8, 3, 6, 5]);
    assert_eq!(calls::moves(&mut t, &mut [0], 4, 1, &[place(1, 0.5)]), Ok(11));
    let mut o = octahedron(24);
    let mut map = [0];
    calls::refine(&mut o, 6, 1).unwrap();
    assert_eq!(calls::moves(&mut o, &mut map, 6, 1, &[place(0, 0.5)]), Ok(14));
    assert_eq!(map[0] >> (6 + 5) & 1, 0);
    t.set_ring(1, &[0, 2, 3]);
    assert_eq!(calls::check(&t, 4), refuse(6, 0));
    t.set_ring(1, &[3, 2]);
    assert_eq!(calls::check(&t, 4), refuse(4, 1));
    assert_eq!(next(&tetrahedron(4).ring(0), 3), Some(1));
    assert_eq!(next(&tetrahedron(4).ring(0), 0), None);
}

fn has(t: &Tables, rings: &[(usize, &[usize])]) {
    rings.iter().for_each(|&(v, ring)| assert_eq!(t.ring(v), ring));
}

/// The tetrahedron and the octahedron with an edge or a face split, and with an edge flipped there and back.
fn reshapings() {
    for (u, v) in [(0, 1), (1, 0)] {
        let mut t = tetrahedron(5);
        assert_eq!(reshape::split_edge(&mut t, 4, u, v), Ok((5, 9, 6)));
        has(&t, &[(0, &[4, 2, 3]), (1, &[4, 3, 2]), (2, &[0, 4, 1, 3]), (3, &[0, 2, 1, 4]), (4, &[0, 3, 1, 2])]);
        assert_eq!(t.point(4), [512, 0, 0]);
    }
    for named in [[0, 1, 3], [1, 3, 0], [3, 0, 1]] {
        let mut t = tetrahedron(5);
        assert_eq!(reshape::split_face(&mut t, 4, named), Ok((5, 9, 6)));
        has(&t, &[(0, &[1, 2, 3, 4]), (1, &[0, 4, 3, 2]), (2, &[0, 1, 3]), (3, &[0, 2, 1, 4]), (4, &[0, 3, 1])]);
        assert_eq!(t.point(4), [341, 0, 341]);
    }
    let (mut t, mut o) = (tetrahedron(4), octahedron(6));
    assert_eq!(reshape::split_face(&mut t, 4, [0, 3, 1]), refuse(18, 0));
    assert_eq!(reshape::split_edge(&mut t, 4, 0, 1), refuse(10, 0));
    assert_eq!(reshape::flip(&mut t, 4, 0, 1), refuse(19, 0));
    assert_eq!(reshape::flip(&mut o, 6, 1, 0), Ok((6, 12, 8)));
    has(&o, &[(0, &[2, 3, 4]), (1, &[4, 5, 2]), (2, &[0, 4, 1, 5, 3]), (4, &[0, 3, 5, 1, 2])]);
    assert_eq!(reshape::flip(&mut o, 6, 4, 2), Ok((6, 12, 8)));
    has(&o, &[(0, &[2, 3, 4, 1]), (1, &[4, 5, 2, 0]), (2, &[0, 1, 5, 3]), (4, &[0, 3, 5, 1])]);
}

fn floats() {
    let shift = Move { vertex: 0, kind: 1, numbers: [0.1, 0.0, 0.0] };
    assert_eq!(moved([77, 0, 0], &place(0, 0.1)), Ok([102, 0, 0]));
    assert_eq!(moved([102, 0, 0], &shift), Ok([204, 0, 0]));
    assert_eq!(moved([0, 0, 0], &place(0, 0.2)), Ok([205, 0, 0]));
    assert_eq!([1.0 / 2048.0, -1.0 / 2048.0, -3.0 / 2048.0].map(units), [0, 0, -2]);
    assert_eq!(moved([0, 0, 0], &place(0, 1024.0)), Ok([FAR, 0, 0]));
    assert_eq!(moved([0, 0, 0], &place(0, f64::from_bits(1024f64.to_bits() + 1))), Err(14));
    assert_eq!([-1, 1, -3, 3].map(|n| rounded(n, 2)), [0, 0, -2, 2]);
    assert!((1..=32).all(|d| (0..=200).all(|n| rounded(-n, d) == -rounded(n, d))));
    assert_eq!([5e-324, -5e-324, 0.49999999999999994 / 1024.0].map(units), [0, 0, 0]);
}

fn listings() {
    let bytes = calls::file_of(&tetrahedron(4), 4);
    assert_eq!(bytes.len(), 118);
    let lines = "1 10 24 16\n0 192 192 192 3\n1 448 192 192 3\n2 192 448 192 3\n3 192 192 448 3\n4 384 128 128 6\n\
                 5 128 384 128 6\n6 128 128 384 6\n7 384 384 128 6\n8 384 128 384 6\n9 128 384 384 6\n";
    assert_eq!(calls::listing(&bytes), lines);
    assert_eq!(calls::listing(&[0; 16_385]), "refused 10 0\n");
    assert_eq!(calls::listing(&bytes[..8]), "refused 17 8\n");
}

/// The tetrahedron's text, written and read; without its last line, and with nothing at all.
fn texts() {
    let text = "OFF\n4 4 6\n0 0 0\n1024 0 0\n0 1024 0\n0 0 1024\n3 0 1 3\n3 0 2 1\n3 0 3 2\n3 1 2 3\n";
    let (mut room, mut t) = ([0; 100], tetrahedron(4));
    assert_eq!(off::write(&t, 4, &mut room), Ok(text.len()));
    assert_eq!(room[..text.len()], *text.as_bytes());
    t.set_ring(3, &[2, 1, 0]);
    assert_eq!(off::read(text.as_bytes(), &mut t), Ok(4));
    has(&t, &[(0, &[1, 2, 3]), (1, &[0, 3, 2]), (2, &[0, 1, 3]), (3, &[0, 2, 1])]);
    assert_eq!(off::read(text.trim_end_matches("3 1 2 3\n").as_bytes(), &mut t), refuse(20, 10));
    assert_eq!(off::read(b"", &mut t), refuse(20, 1));
}

pub fn hold() {
    meshes();
    reshapings();
    floats();
    listings();
    texts();
}
