//! A few of many cases: some of each answer of each call, and none that is large, so that a small file meets every refusal;
//! and those that every sample has.

use crate::format::{Case, LISTING};
use std::collections::HashMap;

/// The call, and the number that it answers; for the listing program the number after `refused`, or nothing.
fn kind(case: &Case) -> (u8, Vec<u8>) {
    let (call, first, rest) = (case.bytes[0], &case.answer[..4], &case.answer[4..]);
    if call != LISTING {
        return (call, first.to_vec());
    }
    let refusal = rest.strip_prefix(b"refused ").unwrap_or(&[]);
    (call, refusal.iter().copied().take_while(|&byte| byte != b' ').collect())
}

/// The first `each` cases of every kind that have at most `most` bytes, or the smallest where all have more. Cases that
/// every sample has come besides.
pub fn sample(cases: Vec<Case>, each: usize, most: usize) -> Vec<Case> {
    let mut least = HashMap::new();
    for case in &cases {
        let bytes = least.entry(kind(case)).or_insert(usize::MAX);
        *bytes = case.bytes.len().min(*bytes);
    }
    let mut taken = HashMap::new();
    let chosen = |case: &Case| {
        if case.kept {
            return true;
        }
        let kind = kind(case);
        let fits = case.bytes.len() <= most.max(least[&kind]);
        let count = taken.entry(kind).or_insert(0);
        *count += fits as usize;
        fits && *count <= each
    };
    cases.into_iter().filter(chosen).collect()
}
