//! Where the crate and the rules part: for each line of docs/DIFFERENCES.md its smallest input, what the crate answers and what is answered here.
use compare::crate_side::{code, codes, ids, letters, mv, mvs};
use cubesim::prelude::open::{ida_star, PruningTable, Solver};
use cubesim::prelude::{Cube, FaceletCube};
use cubesim_proved::Refusal;
use std::panic::catch_unwind;

fn crate_reads(text: &str) -> Option<Vec<u16>> {
    let owned = text.to_string();
    catch_unwind(|| codes(&cubesim::parse_scramble(owned))).ok()
}

fn ours_reads(n: usize, text: &str) -> Result<Vec<u16>, Refusal> {
    let mut out = vec![0u16; text.len()];
    cubesim_proved::parse_scramble(n, text.as_bytes(), &mut out).map(|count| out[..count].to_vec())
}

/// A text, the crate's reading (none: it panics), a size, and the reading here.
fn notation() -> usize {
    const W: fn(u16, u16, u16) -> u16 = cubesim_proved::code;
    let digits = |at| Err(Refusal::Digits(at));
    let letter = |at| Err(Refusal::Letter(at));
    let ending = |at| Err(Refusal::Ending(at));
    let wide = |at| Err(Refusal::Width(Some(at)));
    let lines: Vec<(&str, Option<Vec<u16>>, usize, Result<Vec<u16>, Refusal>)> = vec![
        // the first digit alone is the width, and any 2 makes a half turn
        ("2Uw", Some(vec![W(2, 6, 2)]), 4, Ok(vec![W(2, 6, 1)])),
        ("2Uw'", Some(vec![W(2, 6, 2)]), 4, Ok(vec![W(2, 6, 3)])),
        ("10Uw", Some(vec![W(1, 6, 1)]), 11, Ok(vec![W(10, 6, 1)])),
        ("12Uw", Some(vec![W(1, 6, 2)]), 13, Ok(vec![W(12, 6, 1)])),
        ("20Uw", Some(vec![W(2, 6, 2)]), 21, Ok(vec![W(20, 6, 1)])),
        ("23Uw", Some(vec![W(2, 6, 2)]), 24, Ok(vec![W(23, 6, 1)])),
        ("32Uw", Some(vec![W(3, 6, 2)]), 33, Ok(vec![W(32, 6, 1)])),
        // widths that no cube of the size has: the crate's reader knows no size
        ("Uw", Some(vec![W(2, 6, 1)]), 2, wide(0)),
        ("4Uw", Some(vec![W(4, 6, 1)]), 4, wide(0)),
        ("1Uw", Some(vec![W(1, 6, 1)]), 4, wide(0)),
        ("0Uw", Some(vec![W(0, 6, 1)]), 4, digits(0)),
        // no tokens of the grammar, accepted there
        ("U2'", Some(vec![2]), 3, ending(2)),
        ("U'2", Some(vec![2]), 3, ending(2)),
        ("Uw2'", Some(vec![W(2, 6, 2)]), 4, ending(3)),
        ("R3", Some(vec![13]), 3, ending(1)),
        ("Uxyz", Some(vec![1]), 3, ending(1)),
        ("U,R", Some(vec![1]), 3, ending(1)),
        ("R//", Some(vec![13]), 3, ending(1)),
        ("xw", Some(vec![49]), 4, ending(1)),
        ("wU", Some(vec![W(2, 6, 1)]), 4, letter(0)),
        ("RwU", Some(vec![W(2, 6, 1)]), 4, ending(2)),
        ("-Uw", Some(vec![W(2, 6, 1)]), 4, letter(0)),
        ("+3Uw", Some(vec![W(2, 6, 1)]), 4, letter(0)),
        ("R\u{2019}", Some(vec![13]), 3, ending(1)),
        // a panic there
        ("2R", None, 3, ending(2)),
        ("Q", None, 3, letter(0)),
        ("\u{2019}", None, 3, letter(0)),
        // other spaces of Unicode part tokens there
        ("U\u{a0}R", Some(vec![1, 13]), 3, ending(1)),
    ];
    for (text, crates, n, ours) in &lines {
        assert_eq!(&crate_reads(text), crates, "the crate on {text:?}");
        assert_eq!(&ours_reads(*n, text), ours, "here, size {n}, on {text:?}");
    }
    lines.len()
}

fn ours_moves(n: usize, list: &[u16]) -> Result<Vec<u8>, Refusal> {
    let (mut cube, mut work) = (vec![0u8; 6 * n * n], vec![0u8; 6 * n * n]);
    cubesim_proved::solved(n, &mut cube)?;
    cubesim_proved::apply_moves(n, &mut cube, &mut work, list)?;
    Ok(cube)
}

/// Width 0 turns the stickers of the face alone there, a width above n the whole cube; 105 wraps ids; from letters all ids are 0.
fn moving() -> usize {
    let zero = FaceletCube::new(2).apply_move(mv(cubesim_proved::code(0, 6, 1)));
    assert_eq!(letters(&zero.state()), letters(&FaceletCube::new(2).state()));
    assert_ne!(ids(&zero), ids(&FaceletCube::new(2)));
    assert_eq!(ours_moves(2, &[cubesim_proved::code(0, 6, 1)]), Err(Refusal::Width(None)));
    let past = FaceletCube::new(2).apply_move(mv(cubesim_proved::code(3, 6, 1)));
    assert_eq!(letters(&past.state()), letters(&FaceletCube::new(2).apply_move(mv(53)).state()));
    assert_eq!(ours_moves(2, &[cubesim_proved::code(3, 6, 1)]), Err(Refusal::Width(None)));
    let wrapped = ids(&FaceletCube::new(105));
    assert_eq!((wrapped.len(), wrapped[65_536]), (66_150, 0));
    assert_eq!(cubesim_proved::solved_ids(105, &mut [0u16; 66_150]), Err(Refusal::Size));
    assert!(ids(&FaceletCube::from(FaceletCube::new(2).state())).iter().all(|i| *i == 0));
    assert!(catch_unwind(|| cubesim::sticker_index(3, cubesim::Face::X, 1)).is_err());
    assert_eq!(cubesim_proved::sticker_index(3, b'X', 1), Err(Refusal::Index));
    assert_eq!(cubesim::sticker_index(3, cubesim::Face::F, 10), 27);
    assert_eq!(cubesim_proved::sticker_index(3, b'F', 10), Err(Refusal::Index));
    assert_eq!(cubesim::sticker_index(3, cubesim::Face::F, 0), 17);
    assert_eq!(cubesim_proved::sticker_index(3, b'F', 0), Err(Refusal::Index));
    assert_eq!(cubesim::sticker_index(3, cubesim::Face::U, 0), -1);
    assert_eq!(cubesim_proved::sticker_index(3, b'U', 0), Err(Refusal::Index));
    8
}

fn ours_table(n: usize, moves: &[u16], depth: usize) -> Result<usize, Refusal> {
    let mut start = vec![0u8; 6 * n * n];
    cubesim_proved::solved(n, &mut start)?;
    cubesim_proved::pruning_table(n, &start, moves, depth, &mut vec![0u8; 8 * (6 * n * n + 1)])
}

/// A search from the solved cube with a table of it alone.
fn ours_search(n: usize, moves: &[u16], depth: usize, limit: usize) -> Result<Option<usize>, Refusal> {
    let mut table = vec![0u8; 6 * n * n + 1];
    cubesim_proved::solved(n, &mut table[..6 * n * n])?;
    let (mut work, mut out) = (vec![0u8; (limit + 1) * 6 * n * n], vec![0u16; limit]);
    cubesim_proved::ida_star(n, &table[..6 * n * n], &table, depth, moves, limit, &mut work, &mut out)
}

fn crate_search(n: i32, moves: &[u16], depth: i32, limit: i32) -> Option<Vec<u16>> {
    let cube = FaceletCube::new(n);
    let table = PruningTable::of_entries(&[(cube.state(), 0)], depth);
    ida_star(&cube, &Solver::new(mvs(moves), table), limit).map(|l| codes(&l))
}

/// Bounds of tables and of the search that the crate has not: a size above 7, more than 255 candidates, a depth or a limit above 20.
fn bounds() -> usize {
    let crate_table = |n, moves: &[u16], depth| PruningTable::new(&[FaceletCube::new(n)], depth, &mvs(moves)).entries().len();
    let many = [1u16; 256];
    assert_eq!((crate_table(8, &[], 0), ours_table(8, &[], 0)), (1, Err(Refusal::Size)));
    assert_eq!((crate_search(8, &[], 0, 0), ours_search(8, &[], 0, 0)), (Some(vec![]), Err(Refusal::Size)));
    assert_eq!((crate_table(1, &many, 1), ours_table(1, &many, 1)), (2, Err(Refusal::Bounds)));
    assert_eq!((crate_search(1, &many, 1, 0), ours_search(1, &many, 1, 0)), (Some(vec![]), Err(Refusal::Bounds)));
    assert_eq!((crate_table(1, &[1], 21), ours_table(1, &[1], 21)), (4, Err(Refusal::Bounds)));
    assert_eq!((crate_search(1, &[1], 21, 0), ours_search(1, &[1], 21, 0)), (Some(vec![]), Err(Refusal::Bounds)));
    assert_eq!((crate_search(1, &[1], 1, 21), ours_search(1, &[1], 1, 21)), (Some(vec![]), Err(Refusal::Bounds)));
    7
}

/// Neighbours of one kind and two widths join there, under the first width.
fn lists() -> usize {
    let list = [cubesim_proved::code(2, 6, 1), cubesim_proved::code(3, 6, 1)];
    assert_eq!(codes(&cubesim::simplify_moves(&mvs(&list))), [cubesim_proved::code(2, 6, 2)]);
    let mut out = [0u16; 2];
    assert_eq!(cubesim_proved::simplify_moves(4, &list, &mut out), Ok(2));
    assert_eq!(out, list);
    assert_eq!(code(cubesim::all_moves(2)[18]), cubesim_proved::code(1, 6, 1));
    1
}

/// A search for two moves from the solved cube after a scramble, over the table of the solved cube alone: the crate's answer, and the answer here.
fn two_moves(n: usize, scramble: &[u16], moves: &[u16]) -> [Option<Vec<u16>>; 2] {
    let (solved, from) = (FaceletCube::new(n as i32), FaceletCube::new(n as i32).apply_moves(&mvs(scramble)));
    let crates = ida_star(&from, &Solver::new(mvs(moves), PruningTable::of_entries(&[(solved.state(), 0)], 0)), 2).map(|l| codes(&l));
    let table = [letters(&solved.state()), vec![0]].concat();
    let (mut work, mut out) = (vec![0u8; 18 * n * n], [0u16; 2]);
    let found = cubesim_proved::ida_star(n, &letters(&from.state()), &table, 0, moves, 2, &mut work, &mut out).unwrap();
    [crates, found.map(|count| out[..count].to_vec())]
}

/// In a search, neighbours of one kind and two widths are barred there.
fn neighbours() -> usize {
    let uw = |width, turn| cubesim_proved::code(width, 6, turn);
    assert_eq!(two_moves(2, &[uw(1, 3), uw(2, 3)], &[uw(1, 1), uw(2, 1)]), [None, Some(vec![uw(1, 1), uw(2, 1)])]);
    let scramble = ours_reads(6, "3Uw' 2Uw'").unwrap();
    let turns: Vec<u16> = [2, 3].iter().flat_map(|width| (1..4).map(|turn| uw(*width, turn))).collect();
    assert_eq!(two_moves(6, &scramble, &turns), [None, Some(vec![uw(2, 1), uw(3, 1)])]);
    2
}

pub fn all() -> usize {
    std::panic::set_hook(Box::new(|_| ()));
    let shown = notation() + moving() + bounds() + lists() + neighbours();
    let _ = std::panic::take_hook();
    shown
}
