//! An independent implementation of document 01 and of orders 1, 2 and 4 of document 02, and cases with the answers that
//! it gives.
//!
//!   reference cases SEED ROUNDS FILE              writes seeded cases
//!   reference sample SEED ROUNDS EACH MOST FILE   writes EACH of them for each answer of each call, of at most MOST bytes
//!   reference compare FILE                        recomputes the answers of given cases and compares
//!   reference flag LIST FILE NEW                  writes FILE anew, the cases of LIST marked to hold for halves upward only
//!   reference listing                             is the listing program

mod answers;
mod calls;
mod cases;
mod compare;
mod document;
mod examples;
mod format;
mod meshes;
mod move_cases;
mod off;
mod off_cases;
mod random;
mod reshape;
mod reshape_cases;
mod sample;
mod tables;

use std::io::{Read, Write};

fn number(word: &str) -> usize {
    word.parse().expect("a number")
}

/// Writes a file of cases and says how many there are.
fn write(path: &str, cases: &[format::Case]) -> std::io::Result<()> {
    println!("{} cases", cases.len());
    std::fs::write(path, format::file(cases))
}

fn main() -> std::io::Result<()> {
    let arguments: Vec<String> = std::env::args().skip(1).collect();
    let words: Vec<&str> = arguments.iter().map(String::as_str).collect();
    match words[..] {
        ["cases", seed, rounds, path] => {
            examples::hold();
            write(path, &cases::all(number(seed) as u64, number(rounds)))
        }
        ["sample", seed, rounds, each, most, path] => {
            examples::hold();
            let cases = cases::all(number(seed) as u64, number(rounds));
            write(path, &sample::sample(cases, number(each), number(most)))
        }
        ["compare", path] => {
            let (cases, skipped, different) = compare::compare(&std::fs::read(path)?);
            println!("{cases} cases compared, {skipped} skipped, {} differ {different:?}", different.len());
            std::process::exit(!different.is_empty() as i32)
        }
        ["flag", list, path, new] => {
            std::fs::write(new, compare::flagged(&std::fs::read(path)?, &std::fs::read_to_string(list)?))
        }
        ["listing"] => {
            let mut input = Vec::new();
            std::io::stdin().read_to_end(&mut input)?;
            std::io::stdout().write_all(calls::listing(&input).as_bytes())
        }
        _ => {
            eprintln!("reference cases SEED ROUNDS FILE | sample SEED ROUNDS EACH MOST FILE | compare FILE");
            eprintln!("          flag LIST FILE NEW | listing");
            std::process::exit(2)
        }
    }
}
