//! The same as drag.c, from Rust: the library is called through its C interface.
//!
//!   drag MESH [MOVES]

use std::process::exit;

const PLACES: usize = 32;
const MOST_VERTICES: usize = 1024;
const MOST_LEVEL_VERTICES: usize = 65_535;

#[repr(C)]
struct Counts {
    number: u32,
    place: usize,
    v: usize,
    e: usize,
    f: usize,
}

#[repr(C)]
struct Value {
    number: u32,
    place: usize,
    value: usize,
}

#[repr(C)]
#[derive(Clone, Copy, Debug)]
struct Move {
    vertex: u32,
    kind: u32,
    x: f64,
    y: f64,
    z: f64,
}

#[link(name = "gypsumtrot", kind = "static")]
extern "C" {
    fn gt_read(bytes: *const u8, bytes_length: usize, valences: *mut u16, valences_length: usize, rings: *mut u16, rings_length: usize, positions: *mut i32, positions_length: usize) -> Value;
    fn gt_check(valences: *const u16, valences_length: usize, rings: *const u16, rings_length: usize, positions: *const i32, positions_length: usize, v: usize) -> Counts;
    fn gt_refine(valences: *mut u16, valences_length: usize, rings: *mut u16, rings_length: usize, positions: *mut i32, positions_length: usize, v: usize, levels: usize) -> Counts;
    fn gt_moves(valences: *const u16, valences_length: usize, rings: *const u16, rings_length: usize, positions: *mut i32, positions_length: usize, map: *mut u32, map_length: usize, v: usize, levels: usize, moves: *const Move, moves_length: usize) -> Value;
}

/// The tables of a mesh or of a stack.
struct Tables {
    valences: Vec<u16>,
    rings: Vec<u16>,
    positions: Vec<i32>,
}

impl Tables {
    fn with_rows(rows: usize) -> Tables {
        Tables { valences: vec![0; rows], rings: vec![0; PLACES * rows], positions: vec![0; 3 * rows] }
    }

    fn resize(&mut self, rows: usize) {
        self.valences.resize(rows, 0);
        self.rings.resize(PLACES * rows, 0);
        self.positions.resize(3 * rows, 0);
    }

    fn read(&mut self, bytes: &[u8]) -> Value {
        let Tables { valences, rings, positions } = self;
        unsafe { gt_read(bytes.as_ptr(), bytes.len(), valences.as_mut_ptr(), valences.len(), rings.as_mut_ptr(), rings.len(), positions.as_mut_ptr(), positions.len()) }
    }

    fn check(&self, v: usize) -> Counts {
        let Tables { valences, rings, positions } = self;
        unsafe { gt_check(valences.as_ptr(), valences.len(), rings.as_ptr(), rings.len(), positions.as_ptr(), positions.len(), v) }
    }

    fn refine(&mut self, v: usize, levels: usize) -> Counts {
        let Tables { valences, rings, positions } = self;
        unsafe { gt_refine(valences.as_mut_ptr(), valences.len(), rings.as_mut_ptr(), rings.len(), positions.as_mut_ptr(), positions.len(), v, levels) }
    }

    fn moves(&mut self, map: &mut [u32], v: usize, levels: usize, list: &[Move]) -> Value {
        let Tables { valences, rings, positions } = self;
        unsafe { gt_moves(valences.as_ptr(), valences.len(), rings.as_ptr(), rings.len(), positions.as_mut_ptr(), positions.len(), map.as_mut_ptr(), map.len(), v, levels, list.as_ptr(), list.len()) }
    }
}

fn stop_if(what: &str, number: u32, place: usize) {
    if number != 0 {
        eprintln!("{what}: refused {number} {place}");
        exit(1);
    }
}

/// One move a line: place, shift or stretch, then the vertex and three numbers.
fn parse(line: &str) -> Option<Move> {
    let mut words = line.split_whitespace();
    let kind = words.next()?;
    let kind = ["place", "shift", "stretch"].iter().position(|&name| name == kind)? as u32;
    let vertex = words.next()?.parse().ok()?;
    let mut number = || words.next()?.parse().ok();
    Some(Move { vertex, kind, x: number()?, y: number()?, z: number()? })
}

fn moves_of(path: Option<&String>) -> std::io::Result<Vec<Move>> {
    match path {
        None => Ok(vec![Move { vertex: 0, kind: 1, x: 1.0, y: 0.0, z: 0.0 }]),
        Some(path) => Ok(std::fs::read_to_string(path)?.lines().filter_map(parse).collect()),
    }
}

/// The vertices of each level: four levels above the control mesh, or as many as fit.
fn level_counts(control: &Counts) -> Vec<usize> {
    let mut counts = vec![control.v];
    let mut edges = control.e;
    while counts.len() <= 4 && counts[counts.len() - 1] + edges <= MOST_LEVEL_VERTICES {
        counts.push(counts[counts.len() - 1] + edges);
        edges *= 4;
    }
    counts
}

fn main() -> std::io::Result<()> {
    let arguments: Vec<String> = std::env::args().collect();
    let mesh = arguments.get(1).unwrap_or_else(|| {
        eprintln!("drag MESH [MOVES]");
        exit(2)
    });
    let mut tables = Tables::with_rows(MOST_VERTICES);
    let read = tables.read(&std::fs::read(mesh)?);
    stop_if(mesh, read.number, read.place);
    let control = tables.check(read.value);
    stop_if(mesh, control.number, control.place);
    let counts = level_counts(&control);
    let (levels, rows) = (counts.len() - 1, counts.iter().sum::<usize>());
    tables.resize(rows);
    let last = tables.refine(control.v, levels);
    stop_if("refining", last.number, last.place);
    let list = moves_of(arguments.get(2))?;
    let mut map = vec![0; (rows + 31) / 32];
    let touched = tables.moves(&mut map, control.v, levels, &list);
    stop_if("moving", touched.number, touched.place);
    let mut start = 0;
    for (k, &count) in counts.iter().enumerate() {
        let marked = (start..start + count).filter(|&i| map[i / 32] >> (i % 32) & 1 == 1).count();
        println!("level {k}: {marked} of {count} points touched");
        start += count;
    }
    assert_eq!((last.v, last.f * 3), (counts[levels], last.e * 2));
    println!("{} moves, {} of {rows} points touched", list.len(), touched.value);
    Ok(())
}
