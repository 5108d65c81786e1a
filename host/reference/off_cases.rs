//! Cases of OFF text: texts of any mesh, good and bad, and those at which something changes.

use crate::answers::{read_call, write_call};
use crate::calls::Tables;
use crate::document::*;
use crate::examples;
use crate::format::*;
use crate::meshes::*;
use crate::off::{self, Face};
use crate::random::Random;
use crate::tables::*;

/// The faces of a surface as a text may list them.
fn faces_of(surface: &Surface) -> Vec<Face> {
    surface.faces.iter().map(|&[a, b, c]| [b, a, c]).collect()
}

/// The same faces in any order, each from any corner on.
fn shuffled(random: &Random, mut faces: Vec<Face>) -> Vec<Face> {
    random.shuffle(&mut faces);
    faces.iter_mut().for_each(|face| face.rotate_left(random.below(3)));
    faces
}

/// Points that differ, with small numbers.
fn points(count: usize) -> Vec<Point> {
    (0..count as i64).map(|v| [v, -v, 7 * v % 10]).collect()
}

/// Tables of so many rows that hold what must be written over.
fn lent(random: &Random, rows: usize) -> Tables {
    let mut t = Tables::with_rows(0);
    grow(&mut t, rows, random.bits() as u16);
    t
}

fn read(text: impl AsRef<[u8]>, t: Tables) -> Case {
    read_call(READ_OFF, text.as_ref(), t)
}

/// A reading that every sample has.
fn kept(text: impl AsRef<[u8]>, t: Tables) -> Case {
    Case { kept: true, ..read(text, t) }
}

/// A reading of faces into just the tables that they need.
fn read_faces(random: &Random, count: usize, faces: Vec<Face>) -> Case {
    read(off::text_of(&points(count), &shuffled(random, faces)), lent(random, count))
}

/// The lines of a text, without their newlines.
fn lines_of(text: &str) -> Vec<String> {
    text.lines().map(String::from).collect()
}

/// What may stand for the first line, the counts, a point and a face of the tetrahedron, all of it bad or at least odd.
const HEADS: &[&str] = &["", "off", "OF", "OFFF", "OFF ", " OFF", "OFF\r", "OFF#", "\nOFF", "# OFF\nOFF", "OFF 4 4 6"];
const COUNTS: &[&str] = &[
    "", "4 4", "4 4 6 0", "4  4 6", "4\t4 6", "4 4 6 ", " 4 4 6", "4 4 6\r", "4 4 6 # counts", "04 4 6", "4 04 6",
    "4 4 06", "+4 4 6", "4 +4 6", "-4 4 6", "4 4 -6", "4 -0 0", "4 4 5", "4 4 7", "4 3 4", "4 0 6", "3 4 6", "5 4 6",
    "4 2 3", "4 6 9", "4,4,6", "4 4 2147483654", "4294967300 4 6", "18446744073709551620 4 6", "4294967295 4 6",
    "4294967296 4 6", "4 2863311530 4294967295", "4 2863311532 4294967298", "4 4294967296 6442450944",
];
const POINTS: &[&str] = &[
    "", "1", "1 2", "1 2 3 4", "1  2 3", "1 2\t3", "1 2 3 ", " 1 2 3", "1 2 3\r", "1 2 3#", "-0 2 3", "1 -0 3",
    "00 2 3", "1 02 3", "-01 2 3", "+1 2 3", "1 2 +3", "- 2 3", "1 - 3", "--1 2 3", "1- 2 3", "1.5 2 3", "1e3 2 3",
    "0x1 2 3", "2147483648 2 3", "1 -2147483649 3", "1 2 4294967296", "18446744073709551616 2 3",
    "1 -18446744073709551617 3", "2147483647 2 3", "1 -2147483648 3", "1 2 1048577", "1 -1048577 3",
    "-1048576 1048576 0", "-1 -2 -3", "# a point\n1 2 3",
];
const FACES: &[&str] = &[
    "", "3 0 1", "3 0 1 3 0", "4 0 1 3 2", "2 0 1", "0 1 3", "03 0 1 3", "+3 0 1 3", "-3 0 1 3", "3.0 0 1 3",
    "4294967299 0 1 3", "3  0 1 3", "3 0\t1 3", "3 0 1 3 ", " 3 0 1 3", "3 0 1 3\r", "3 0 1 3#", "3 0 1 3\0",
    "3 00 1 3", "3 -0 1 3", "3 0 +1 3", "3 0 1 03", "3 0 1 -3", "3 0 0 3", "3 0 3 3", "3 3 0 3", "3 0 1 4", "3 4 0 1",
    "3 0 4 1", "3 0 1 65539", "3 0 1 4294967295", "3 0 1 4294967296", "3 0 1 4294967299", "3 0 1 18446744073709551619",
    "3 3 1 0", "3 0 1 2", "# a face\n3 0 1 3", "3 0 1 3 255 0 0",
];

/// Lines of the tetrahedron's text in whose place something else stands.
fn every_line(random: &Random, text: &str, cases: &mut Vec<Case>) {
    for (instead, first, last) in [(HEADS, 0, 0), (COUNTS, 1, 1), (POINTS, 2, 5), (FACES, 6, 9)] {
        for line in instead {
            let mut lines = lines_of(text);
            lines[first + random.below(last - first + 1)] = line.to_string();
            cases.push(kept(lines.join("\n") + "\n", lent(random, 4)));
        }
    }
}

/// The tetrahedron's text cut anywhere, with any byte changed, with more behind it, with a line dropped, doubled or
/// exchanged.
fn every_byte(random: &Random, text: &str, cases: &mut Vec<Case>) {
    for length in 0..text.len() {
        let cut = &text.as_bytes()[..length];
        let at_line = cut.last() == Some(&b'\n') || text.as_bytes()[length] == b'\n';
        cases.push(Case { kept: at_line, ..read(cut, lent(random, 4)) });
        for byte in b"\n\r\t 09-+#3\xff" {
            let mut bytes = text.as_bytes().to_vec();
            bytes[length] = *byte;
            cases.push(read(&bytes, lent(random, 4)));
            bytes.insert(length, text.as_bytes()[length]);
            cases.push(read(bytes, lent(random, 4)));
        }
    }
    for behind in ["\n", " ", "\0", "# end\n", "3 0 1 3\n", "OFF\n"] {
        cases.push(kept(format!("{text}{behind}"), lent(random, 4)));
    }
    for line in 0..10 {
        for change in 0..3 {
            let mut lines = lines_of(text);
            match change {
                0 => drop(lines.remove(line)),
                1 => lines.insert(line, lines[line].clone()),
                _ => lines.swap(line, (line + 1) % 10),
            }
            cases.push(kept(lines.join("\n") + "\n", lent(random, 4)));
        }
    }
}

/// Very few and very many vertices, and none; of most of them no more than the points.
fn every_count(random: &Random, cases: &mut Vec<Case>) {
    let back_to_back = [[0, 1, 2], [0, 2, 1]];
    for rows in [0, 3, 4] {
        cases.push(kept(off::text_of(&points(3), &back_to_back), lent(random, rows)));
    }
    for count in [0, 1, 3, 4, 1023, 1024, 1025, 5000] {
        cases.push(kept(off::text_of(&vec![[0, 0, 0]; count], &[]), lent(random, if count > 4 { 0 } else { count })));
    }
    for count in [1023, 1024, 1025] {
        let mut surface = globe(127, 8);
        (0..count - surface.count).for_each(|face| surface.split_face(8 * face));
        let faces = shuffled(random, faces_of(&surface));
        cases.push(read(off::text_of(&points(count), &faces), lent(random, count)));
        cases.push(read(off::text_of(&points(count), &faces), lent(random, count - 1)));
    }
}

/// Just the tables that are needed, an item less in one of them, and more.
fn every_room(random: &Random, text: &str, cases: &mut Vec<Case>) {
    for short in 0..5 {
        let mut t = lent(random, 4);
        match short {
            0 => t.valences.truncate(3),
            1 => t.rings.truncate(4 * PLACES - 1),
            2 => t.positions.truncate(11),
            3 => grow(&mut t, 6, 9),
            _ => {}
        }
        cases.push(kept(text, t));
    }
    cases.push(kept(text.replace("3 0 1 3", "3 1 0 3"), lent(random, 3)));
}

/// A surface's faces with other numbers for its vertices.
fn numbered(surface: &Surface, number: impl Fn(usize) -> usize) -> Vec<Face> {
    faces_of(surface).iter().map(|face| face.map(&number)).collect()
}

/// Two double cones of n and of m sides that share a tip, which has the highest number; the tips that they do not share
/// have numbers 1 and 0.
fn two_cones(n: usize, m: usize) -> (usize, Vec<Face>) {
    let last = n + m + 2;
    let mut faces = numbered(&double_cone(n), |v| if v == 0 { last } else if v == n + 1 { 1 } else { v + 1 });
    faces.extend(numbered(&double_cone(m), |v| if v == 0 { last } else if v == m + 1 { 0 } else { n + 1 + v }));
    (last + 1, faces)
}

/// Faces that do not close into one ring at some vertex, or whose rings are too small or too large.
fn every_ring(random: &Random, cases: &mut Vec<Case>) {
    let solid = faces_of(&tetrahedron());
    let with = |more: &[Face]| [&solid[..], more].concat();
    let shifted = |by: usize| numbered(&tetrahedron(), |v| v + by);
    let mut sets: Vec<(usize, Vec<Face>)> = vec![
        (4, with(&[])),
        (4, solid.iter().map(|&[a, b, c]| [b, a, c]).collect()),
        (4, solid[..2].to_vec()),
        (4, solid[2..].to_vec()),
        (4, vec![[0, 1, 3], [0, 1, 2]]),
        (4, vec![[0, 1, 3], [1, 3, 0], [0, 2, 1], [1, 2, 3]]),
        (4, with(&solid)),
        (4, with(&[[0, 1, 2], [0, 2, 1]])),
        (5, with(&[])),
        (5, vec![[1, 0, 2], [2, 0, 3], [3, 0, 2], [1, 2, 4]]),
        (5, shifted(1)),
        (5, with(&[[0, 4, 1], [0, 1, 4]])),
        (6, with(&[[0, 4, 5], [0, 5, 4]])),
        (6, with(&[[3, 4, 5], [3, 5, 4]])),
        (6, with(&numbered(&tetrahedron(), |v| [0, 1, 4, 5][v]))),
        (6, with(&shifted(2))),
        (7, with(&[[4, 5, 6], [4, 6, 5]])),
        (7, [shifted(3), vec![[0, 1, 2], [2, 1, 0]]].concat()),
        (7, with(&[[4, 5, 6], [4, 5, 6]])),
        (7, with(&shifted(3))),
        (7, with(&numbered(&tetrahedron(), |v| if v == 0 { 0 } else { v + 3 }))),
        (8, with(&shifted(4))),
        (9, [shifted(1), vec![[5, 6, 7], [6, 5, 8]]].concat()),
        two_cones(3, 4),
        two_cones(16, 16),
        two_cones(16, 17),
        two_cones(33, 3),
        two_cones(33, 40),
    ];
    for (turned, face) in solid.iter().enumerate() {
        let mut faces = solid.clone();
        faces[turned] = [face[1], face[0], face[2]];
        sets.push((4, faces));
    }
    cases.extend(sets.into_iter().map(|(count, faces)| Case { kept: true, ..read_faces(random, count, faces) }));
}

/// Rings of many sizes at the tips of cones, the tips being first and last or last but one and last: closed, without two
/// faces, with two or all of them doubled.
fn every_cone(random: &Random, cases: &mut Vec<Case>) {
    for n in [3, 8, 9, 16, 17, 31, 32, 33, 64, 65, 128, 129, 200, 256, 257, 511, 513, 1021, 1022] {
        let first_and_last = faces_of(&double_cone(n));
        let both_last = numbered(&double_cone(n), |v| (v + n + 1) % (n + 2));
        for (order, faces) in [first_and_last, both_last].iter().enumerate() {
            let more = |doubled: usize| [&faces[..], &faces[..doubled]].concat();
            for faces in [more(0), faces[2..].to_vec(), more(2), more(2 * n)] {
                let chosen = faces.len() <= 2 * n && (n == 32 || n == 33 || n == 200 && order == 0);
                cases.push(Case { kept: chosen, ..read_faces(random, n + 2, faces) });
            }
        }
    }
}

/// A face repeated until its corners have more faces than any ring can have, and until 16 bits do not hold their number;
/// vertex 0 has none of them.
fn every_crowd(random: &Random, cases: &mut Vec<Case>) {
    for times in [1024, 1026] {
        cases.push(kept(off::text_of(&points(4), &vec![[1, 2, 3]; times]), lent(random, 4)));
    }
    let crowd = [vec![[1, 2, 3]; 65_536], faces_of(&tetrahedron())].concat();
    cases.push(read(off::text_of(&points(4), &crowd), lent(random, 4)));
}

/// Points beyond the range, in a sound mesh and in ones that are refused before that.
fn every_point(random: &Random, cases: &mut Vec<Case>) {
    let solid = faces_of(&tetrahedron());
    let (least, greatest) = (i32::MIN as i64, i32::MAX as i64);
    for (v, c, number) in [(0, 0, FAR + 1), (1, 1, -FAR - 1), (3, 2, greatest), (2, 0, least), (2, 1, FAR), (3, 2, -FAR)] {
        let mut points = points(5);
        points[v][c] = number;
        cases.push(kept(off::text_of(&points[..4], &shuffled(random, solid.clone())), lent(random, 4)));
        cases.push(kept(off::text_of(&points, &shuffled(random, solid.clone())), lent(random, 5)));
        cases.push(kept(off::text_of(&points[..4], &shuffled(random, solid[2..].to_vec())), lent(random, 4)));
    }
}

fn room(random: &Random, bytes: usize) -> Vec<u8> {
    (0..bytes).map(|_| random.bits() as u8).collect()
}

/// Document 01's meshes, extreme points and full rings, written into just the room that is needed, a byte less, and more;
/// meshes that are refused.
fn every_writing(random: &Random, cases: &mut Vec<Case>) {
    let mut extremes = tables(random, &tetrahedron(), 4);
    let numbers = [-FAR as i32, FAR as i32, 0, -1, 1, -10, 9, 10, 99_999, 100_000, -999_999, 1_000_000];
    extremes.positions[..12].copy_from_slice(&numbers);
    let full = tables(random, &double_cone(32), 34);
    let meshes = [(examples::tetrahedron(5), 4), (examples::octahedron(6), 6), (extremes, 4), (full, 34)];
    let written = |count, t: &Tables, bytes| {
        let case = write_call(WRITE_OFF, count, t.clone(), room(random, bytes));
        Case { kept: true, ..case }
    };
    for (t, count) in &meshes {
        let bytes = off::text_of_mesh(t, *count).len();
        [bytes, bytes - 1, bytes + 3, 0].iter().for_each(|&bytes| cases.push(written(*count, t, bytes)));
    }
    for count in [0, 3, 5, 1024, 1025, 65_540, 4_294_967_295] {
        cases.push(written(count, &meshes[0].0, 100));
    }
    for damage in 0..8 {
        let mut t = examples::tetrahedron(4);
        match damage {
            0 => t.valences.truncate(3),
            1 => t.rings.truncate(4 * PLACES - 1),
            2 => t.positions.truncate(11),
            3 => t.set_ring(2, &[0, 1]),
            4 => t.valences[3] = 33,
            5 => t.set_ring(1, &[0, 2, 3]),
            6 => t.set_ring(0, &[1, 2, 2]),
            _ => t.positions[7] = FAR as i32 + 1,
        }
        cases.push(written(4, &t, 100));
        cases.push(written(4, &t, 0));
    }
    let mut o = examples::octahedron(6);
    o.set_ring(4, &[0, 3, 1]);
    cases.push(written(6, &o, 200));
}

/// The most vertices, with rings as full as tubes make them.
fn largest(random: &Random, cases: &mut Vec<Case>) {
    let mut surface = torus(32, 32);
    (0..1500).for_each(|_| surface.tube(random));
    let t = tables(random, &surface, 1024);
    let text = off::text_of_mesh(&t, 1024);
    cases.push(write_call(WRITE_OFF, 1024, t.clone(), room(random, text.len())));
    cases.push(write_call(WRITE_OFF, 1024, t, room(random, text.len() - 1)));
    cases.push(read(text, lent(random, 1024)));
}

/// Something about faces goes wrong, or at least becomes odd; their number stays even.
fn damage_faces(random: &Random, count: usize, faces: &mut Vec<Face>) {
    let (i, j) = (random.below(faces.len()), random.below(faces.len()));
    let face = faces[i];
    match random.below(8) {
        0 => faces[i] = [face[1], face[0], face[2]],
        1 => faces[i][random.below(3)] = random.below(count),
        2 => faces[i] = faces[j],
        3 => faces.truncate(faces.len() - 2),
        4 => faces.extend([face, faces[j]]),
        5 => faces.extend([face, [face[1], face[0], face[2]]]),
        6 => faces.extend([0, 1].map(|_| [0, 1, 2].map(|_| random.below(count)))),
        _ => {
            let (u, v) = (random.below(count), random.below(count));
            faces.iter_mut().for_each(|face| *face = face.map(|x| if x == u { v } else { x }));
        }
    }
}

/// Numbers that are seldom right, and what is no number.
const ITEMS: &[&str] = &[
    "0", "3", "4", "-1", "-0", "00", "01", "+1", "", "-", "x", "1024", "65535", "65536", "1048577", "-1048577",
    "2147483648", "-2147483649", "4294967295", "4294967296",
];

/// A line, an item or a byte of a text changes.
fn damage_text(random: &Random, text: &str) -> Vec<u8> {
    let mut lines = lines_of(text);
    let (i, j) = (random.below(lines.len()), random.below(lines.len()));
    match random.below(8) {
        0 => drop(lines.remove(i)),
        1 => lines.insert(i, lines[j].clone()),
        2 => lines.swap(i, j),
        3 | 4 => {
            let mut items: Vec<&str> = lines[i].split(' ').collect();
            let k = random.below(items.len());
            items[k] = random.pick(ITEMS);
            lines[i] = items.join(" ");
        }
        5 => lines[i] += random.pick(&[" ", " 0", "\r", "\t", "\n", "#"]),
        _ => {}
    }
    let mut bytes = (lines.join("\n") + "\n").into_bytes();
    let at = random.below(bytes.len());
    match random.below(8) {
        0 => bytes.truncate(at),
        1 => bytes[at] = random.pick(b"\n\r\t 0123456789-+"),
        2 => bytes[at] = random.bits() as u8,
        3 => drop(bytes.remove(at)),
        _ => {}
    }
    bytes
}

fn read_case(random: &Random, size: usize) -> Case {
    let surface = any_surface(random, size);
    let (mut count, mut faces) = (surface.count, faces_of(&surface));
    let coordinates = tables(random, &surface, 0);
    let mut points: Vec<Point> = (0..count).map(|v| coordinates.point(v)).collect();
    if random.once_in(3) {
        (0..1 + random.below(2)).for_each(|_| damage_faces(random, count, &mut faces));
    }
    if random.once_in(8) {
        count += 1 + random.below(2);
        points.resize(count, [0; 3]);
    }
    if random.once_in(6) {
        points[random.below(count)][random.below(3)] = random.pick(&BEYOND) as i64;
    }
    let text = off::text_of(&points, &shuffled(random, faces));
    let mut t = lent(random, count + random.below(3) / 2);
    resize(random, &mut t, count);
    if random.once_in(3) { read(damage_text(random, &text), t) } else { read(text, t) }
}

fn write_case(random: &Random) -> Case {
    let size = random.pick(&[4, 6, 20, 60]);
    let (mut t, rows) = control(random, size, 3);
    resize(random, &mut t, rows);
    let count = mostly(random, rows);
    let exact = off::write(&t, count, &mut [0; 20_000]).unwrap_or(100);
    let bytes = random.pick(&[exact, exact, exact + 1, exact + 50, exact - 1, random.below(exact), 0]);
    write_call(WRITE_OFF, count, t, room(random, bytes))
}

/// So many rounds of each call, and the deterministic cases once.
pub fn all(random: &Random, rounds: usize, cases: &mut Vec<Case>) {
    let text = off::text_of_mesh(&examples::tetrahedron(4), 4);
    every_line(random, &text, cases);
    every_byte(random, &text, cases);
    every_count(random, cases);
    every_room(random, &text, cases);
    every_ring(random, cases);
    every_cone(random, cases);
    every_crowd(random, cases);
    every_point(random, cases);
    every_writing(random, cases);
    largest(random, cases);
    for round in 0..rounds {
        (0..8).for_each(|_| cases.push(read_case(random, random.pick(&[4, 4, 6, 20, 60]))));
        if round % 5 == 0 {
            cases.push(read_case(random, 100 + random.below(900)));
        }
        (0..4).for_each(|_| cases.push(write_case(random)));
    }
}
