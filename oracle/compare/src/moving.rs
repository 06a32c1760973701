//! Moves on letters and ids, masks, the solved test.
use compare::crate_side::{faces, ids, letters, mv, mvs};
use compare::inputs;
use crate::Tally;
use compare::rng::Rng;
use cubesim::prelude::{Cube, FaceletCube};

fn ours(n: usize, list: &[u16]) -> (Vec<u8>, Vec<u16>) {
    let count = 6 * n * n;
    let (mut cube, mut work) = (vec![0u8; count], vec![1u8; count]);
    let (mut id, mut id_work) = (vec![0u16; count], vec![1u16; count]);
    cubesim_proved::solved(n, &mut cube).unwrap();
    cubesim_proved::solved_ids(n, &mut id).unwrap();
    cubesim_proved::apply_moves(n, &mut cube, &mut work, list).unwrap();
    cubesim_proved::apply_moves_to_ids(n, &mut id, &mut id_work, list).unwrap();
    assert!(work.iter().all(|b| *b == 0) && id_work.iter().all(|b| *b == 0));
    (cube, id)
}

/// Every kind and turn, every width up to size 12 and some widths of larger sizes: all indices, letters and ids.
pub fn every_move(tally: &mut Tally) {
    for n in (1..=12usize).chain([13, 20, 33, 64, 104]) {
        let solved = FaceletCube::new(n as i32);
        for kind in 0..15u16 {
            let widths: Vec<usize> = match kind {
                6..=11 if n <= 12 => (1..=n).collect(),
                6..=11 => vec![1, 2, n / 2, n - 1, n],
                _ => vec![0],
            };
            for width in widths {
                for turn in 1..=3u16 {
                    let code = width as u16 * 64 + kind * 4 + turn;
                    let turned = solved.apply_move(mv(code));
                    let (cube, id) = ours(n, &[code]);
                    tally.same("single moves, a cube of letters each", &letters(&turned.state()), &cube, || format!("size {n}, code {code}"));
                    tally.same("single moves, all ids each", &ids(&turned), &id, || format!("size {n}, code {code}"));
                }
            }
        }
    }
}

pub fn random_lists(tally: &mut Tally, rng: &mut Rng) {
    for round in 0..6_000 {
        let n = if round < 5_990 { 1 + rng.below(9) } else { 20 + rng.below(30) };
        let length = if round % 50 == 0 { 400 } else { rng.below(30) };
        let list = rng.codes(n, length);
        let turned = FaceletCube::new(n as i32).apply_moves(&mvs(&list));
        let (cube, id) = ours(n, &list);
        tally.same("lists of moves, a cube of letters each", &letters(&turned.state()), &cube, || format!("size {n}, {list:?}"));
        tally.same("lists of moves, all ids each", &ids(&turned), &id, || format!("size {n}, {list:?}"));
    }
}

pub fn masks(tally: &mut Tally, rng: &mut Rng) {
    for _ in 0..5_000 {
        let n = 1 + rng.below(7);
        let length = rng.below(12);
        let list = rng.codes(n, length);
        let keep = inputs::keep(rng, n);
        let masked = FaceletCube::new(n as i32)
            .apply_moves(&mvs(&list))
            .mask(&|i, f| if keep[i as usize] == 0 { cubesim::Face::X } else { f });
        let (mut cube, id) = ours(n, &list);
        cubesim_proved::mask(n, &mut cube, &id, &keep).unwrap();
        tally.same("mask, a cube each", &letters(&masked.state()), &cube, || format!("size {n}, {list:?}, {keep:?}"));
    }
}

/// Solved cubes in other colours, and cubes with a sticker or two changed.
pub fn solved(tally: &mut Tally, rng: &mut Rng) {
    for _ in 0..20_000 {
        let n = 1 + rng.below(6);
        let cube = inputs::painted(rng, n);
        let crates = FaceletCube::from(faces(&cube)).is_solved();
        let here = cubesim_proved::is_solved(n, &cube).unwrap();
        tally.same("is_solved, a cube each", &crates, &here, || format!("size {n}, {cube:?}"));
    }
}
