//! Codes and lists: all_moves, sticker_index, simplify_moves.
use compare::crate_side::{codes, face, mvs};
use compare::inputs::joining_list;
use crate::Tally;
use compare::rng::Rng;

pub fn all_moves(tally: &mut Tally) {
    for n in 1..=104usize {
        let crates = codes(&cubesim::all_moves(n as i32));
        let mut out = vec![0u16; crates.len()];
        let count = cubesim_proved::all_moves(n, &mut out).unwrap();
        out.truncate(count);
        tally.same("all_moves, a size each", &crates, &out, || format!("size {n}"));
    }
}

pub fn sticker_index(tally: &mut Tally) {
    for n in 1..=104usize {
        for letter in *b"URFDLB" {
            for index in 1..=n * n {
                let crates = cubesim::sticker_index(n as i32, face(letter), index as i32) as usize;
                let ours = cubesim_proved::sticker_index(n, letter, index).unwrap();
                tally.same("sticker_index, a sticker each", &crates, &ours, || format!("size {n}, face {letter}, {index}"));
            }
        }
    }
}

pub fn simplify(tally: &mut Tally, rng: &mut Rng) {
    for round in 0..200_000 {
        let n = 1 + rng.below(12);
        let list = joining_list(rng, n, round % 100 == 0);
        let crates = codes(&cubesim::simplify_moves(&mvs(&list)));
        let mut out = vec![9u16; list.len()];
        let count = cubesim_proved::simplify_moves(n, &list, &mut out).unwrap();
        assert!(out[count..].iter().all(|c| *c == 0));
        out.truncate(count);
        tally.same("simplify_moves, a list each", &crates, &out, || format!("size {n}, {list:?}"));
    }
}
