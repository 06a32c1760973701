//! Pruning tables entry by entry, and searches on built tables and on spoiled ones.
use crate::Tally;
use compare::crate_side::letters;
use compare::inputs::{Build, Entries, Search, Widths};
use compare::rng::Rng;
use cubesim::prelude::{Cube, FaceletCube};
use cubesim_proved::Refusal;
use std::collections::BTreeSet;

pub fn bytes(entries: &Entries) -> Vec<u8> {
    entries.iter().flat_map(|(k, v)| k.iter().copied().chain([*v as u8])).collect()
}

pub fn tables(tally: &mut Tally, rng: &mut Rng) {
    for _ in 0..3_000 {
        let asked = Build::new(rng);
        let Build { n, ref starts, ref moves, depth } = asked;
        let entry = 6 * n * n + 1;
        let crates = asked.crates();
        let flat: Vec<u8> = starts.iter().flat_map(|c| letters(&c.state())).collect();
        let mut table = vec![7u8; (crates.len() + 1) * entry];
        let count = cubesim_proved::pruning_table(n, &flat, moves, depth, &mut table).unwrap();
        assert!(table[count * entry..].iter().all(|b| *b == 7));
        table.truncate(count * entry);
        tally.same("pruning_table, a table each", &bytes(&crates), &table, || format!("size {n}, starts {flat:?}, moves {moves:?}, depth {depth}"));
        if let Some(room) = (crates.len() * entry).checked_sub(1) {
            let mut short = vec![7u8; room];
            let answer = cubesim_proved::pruning_table(n, &flat, moves, depth, &mut short);
            assert!(answer == Err(Refusal::Room) && short.iter().all(|b| *b == 0));
        }
    }
}

/// What a table is built from, in bytes, and a few words for the reader of a difference.
pub struct Asked<'a> {
    pub name: &'a str,
    pub n: usize,
    pub starts: &'a [u8],
    pub moves: &'a [u16],
    pub depth: usize,
}

/// One call: its answer and every byte of the buffer, which was full of sevens, are what they have to be.
fn call(tally: &mut Tally, kind: &'static str, asked: &Asked, answer: Result<usize, Refusal>, buffer: &[u8]) {
    let Asked { name, n, starts, moves, depth } = *asked;
    let (entry, room) = (6 * n * n + 1, buffer.len());
    let mut table = vec![7u8; room];
    let ours = cubesim_proved::pruning_table(n, starts, moves, depth, &mut table);
    // buffers of megabytes are not printed: the entry around the first byte that differs tells enough
    let at = table.iter().zip(buffer).position(|(a, b)| a != b).map(|i| i / entry);
    let told = |bytes: &[u8]| at.map(|i| (i, bytes[i * entry..room.min((i + 1) * entry)].to_vec()));
    tally.same(kind, &(answer, told(buffer)), &(ours, told(&table)), || {
        let cubes = if starts.len() <= 10_000 { format!("{starts:?}") } else { format!("{} bytes", starts.len()) };
        format!("{name}: size {n}, starts {cubes}, moves {moves:?}, depth {depth}, room for {room} bytes")
    });
}

/// A table with room for exactly its entries, for one entry and for one byte less, for nothing, and for far more.
pub fn rooms(tally: &mut Tally, kind: &'static str, asked: &Asked, want: &[u8]) {
    let entry = 6 * asked.n * asked.n + 1;
    let count = want.len() / entry;
    call(tally, kind, asked, Ok(count), want);
    let mut more = want.to_vec();
    more.resize(want.len() * 3 + 100 * entry + entry / 2, 7);
    call(tally, kind, asked, Ok(count), &more);
    if count == 0 {
        return;
    }
    for short in [want.len() - entry, want.len() - 1, 0] {
        call(tally, kind, asked, Err(Refusal::Room), &vec![0; short]);
    }
}

/// The same on what the crate builds.
fn held(tally: &mut Tally, name: &str, n: usize, starts: &[FaceletCube], moves: &[u16], depth: usize) {
    let flat: Vec<u8> = starts.iter().flat_map(|c| letters(&c.state())).collect();
    let want = bytes(&Build { n, starts: starts.to_vec(), moves: moves.to_vec(), depth }.crates());
    rooms(tally, "pruning_table, chosen tables and rooms, a call each", &Asked { name, n, starts: &flat, moves, depth }, &want);
}

fn face_moves() -> Vec<u16> {
    (0..6).flat_map(|k| (1..4).map(move |t| k * 4 + t)).collect()
}

/// All moves of a size, over and over, up to so many.
fn candidates(n: usize, count: usize) -> Vec<u16> {
    let mut all = vec![0u16; 18 + 18 * (n / 2)];
    cubesim_proved::all_moves(n, &mut all).unwrap();
    all.into_iter().cycle().take(count).collect()
}

/// Large tables, small orbits under a great depth, many equal starts and many candidates, candidates that lead nowhere new, no start.
pub fn chosen_tables(tally: &mut Tally, rng: &mut Rng) {
    let halves = [2u16, 22, 10, 18, 6, 14];
    let faces = face_moves();
    let solved = |n: usize| [FaceletCube::new(n as i32)];
    for depth in 0..=6 {
        held(tally, "half turns", 3, &solved(3), &halves, depth);
    }
    for depth in 0..=4 {
        held(tally, "face moves", 3, &solved(3), &faces, depth);
    }
    for n in 1..=7 {
        let all = candidates(n, 255);
        held(tally, "255 candidates", n, &solved(n), &all, 1);
        held(tally, "all moves", n, &solved(n), &candidates(n, 18 + 18 * (n / 2)), 2);
        held(tally, "no start", n, &[], &all, 20);
        held(tally, "no start and no candidate", n, &[], &[], 0);
        held(tally, "no candidate", n, &solved(n), &[], 20);
        held(tally, "one colour leads nowhere new", n, &[solved(n)[0].mask(&|_, _| cubesim::Face::X)], &all, 20);
        for orbit in [&[1u16][..], &[1, 21], &[2, 14], &[49, 53, 57], &[3, 3, 3, 1]] {
            held(tally, "a small orbit, depth 20", n, &solved(n), orbit, 20);
        }
    }
    // a level of more candidates than an index of 262,144 slots takes at once, of few different states
    held(tally, "255 candidates", 2, &solved(2), &candidates(2, 255), 4);
    held(tally, "255 candidates", 1, &solved(1), &candidates(1, 255), 20);
    let one = compare::inputs::cube(rng, 1);
    held(tally, "300,000 equal starts", 1, &vec![one; 300_000], &[1, 13], 2);
    let few: Vec<FaceletCube> = (0..40).map(|_| compare::inputs::cube(rng, 3)).collect();
    let many: Vec<FaceletCube> = (0..5_000).map(|_| rng.of(&few).clone()).collect();
    held(tally, "5,000 starts, many of them equal", 3, &many, &halves, 1);
    // every state of a table as a start
    let states = Build { n: 3, starts: solved(3).to_vec(), moves: halves.to_vec(), depth: 4 }.crates();
    let starts: Vec<FaceletCube> = states.iter().map(|(k, _)| FaceletCube::from(compare::crate_side::faces(k))).collect();
    held(tally, "a table's states as starts", 3, &starts, &halves, 1);
    held(tally, "a table's states as starts", 3, &starts, &faces, 1);
}

/// The table of 18 face moves at depth 5, 621,649 entries, exactly full.
pub fn largest_table(tally: &mut Tally) {
    let (faces, solved) = (face_moves(), FaceletCube::new(3));
    let want = bytes(&Build { n: 3, starts: vec![solved.clone()], moves: faces.clone(), depth: 5 }.crates());
    let starts = letters(&solved.state());
    let asked = Asked { name: "face moves", n: 3, starts: &starts, moves: &faces, depth: 5 };
    call(tally, "pruning_table, 621,649 entries, a call each", &asked, Ok(want.len() / 55), &want);
    call(tally, "pruning_table, 621,649 entries, a call each", &asked, Err(Refusal::Room), &vec![0; want.len() - 55]);
}

/// The answer here, with the work area zero afterwards.
fn ours(asked: &Search) -> Option<Vec<u16>> {
    let Search { n, ref from, ref entries, depth, ref moves, limit, .. } = *asked;
    let mut work = vec![5u8; (limit + 1) * 6 * n * n];
    let mut out = vec![0u16; limit];
    let found = cubesim_proved::ida_star(n, from, &bytes(entries), depth, moves, limit, &mut work, &mut out).unwrap();
    assert!(work.iter().all(|b| *b == 0));
    found.map(|count| out[..count].to_vec())
}

/// Searches with candidates of one width a kind, where the crate is the judge, and with two widths of a kind, where the rules are; and where the table is
/// admissible, all lists one by one. The answer is how often the crate answers otherwise where a kind has two widths.
pub fn searches(tally: &mut Tally, rng: &mut Rng) -> usize {
    let mut otherwise = 0;
    for round in 0..12_000 {
        let (spoiled, widths) = (round % 2 == 1, if round % 4 < 2 { Widths::One } else { Widths::Two });
        let asked = Search::new(rng, spoiled, widths);
        let ours = ours(&asked);
        let told = || format!("size {}, cube {:?}, entries {:?}, depth {}, moves {:?}, limit {}", asked.n, asked.from, asked.entries, asked.depth, asked.moves, asked.limit);
        let (crates, ruled) = (asked.crates(), asked.ruled());
        match (widths, spoiled) {
            (Widths::One, false) => tally.same("ida_star on built tables, a search each", &crates, &ours, told),
            (Widths::One, true) => tally.same("ida_star on spoiled tables, a search each", &crates, &ours, told),
            (Widths::Two, false) => tally.same("ida_star on built tables, two widths of a kind, by the rules, a search each", &ruled, &ours, told),
            (Widths::Two, true) => tally.same("ida_star on spoiled tables, two widths of a kind, by the rules, a search each", &ruled, &ours, told),
        }
        match widths {
            Widths::One => assert_eq!(crates, ruled, "the crate and the rules, one width a kind"),
            Widths::Two => otherwise += usize::from(crates != ours),
        }
        if asked.admissible {
            tally.same("ida_star on admissible tables, by all lists, a search each", &asked.foremost(), &ours, told);
        }
    }
    otherwise
}

/// Keys that are alike up to some byte, so that single bytes and whole words decide how they stand.
fn alike(rng: &mut Rng, m: usize, count: usize) -> Vec<Vec<u8>> {
    let base: Vec<u8> = (0..m).map(|_| rng.below(256) as u8).collect();
    let mut keys = BTreeSet::new();
    while keys.len() < count {
        let (mut key, from) = (base.clone(), rng.below(m));
        let till = if rng.below(2) == 0 { from + 1 } else { m };
        key[from..till].iter_mut().for_each(|b| *b = rng.below(256) as u8);
        keys.insert(key);
    }
    keys.into_iter().collect()
}

/// Every place of tables of up to 40 entries of any bytes, and keys beside them. A search with limit 0 tells whether the number that it reads is 0; the
/// judge walks the entries.
pub fn lookups(tally: &mut Tally, rng: &mut Rng) {
    for (n, count) in (1usize..=7).flat_map(|n| (1usize..=40).map(move |count| (n, count))) {
        let keys = alike(rng, 6 * n * n, count);
        for goal in 0..count {
            let number = |i: usize| if i == goal { 0u8 } else { 1 + (i % 3) as u8 };
            let table: Vec<u8> = keys.iter().enumerate().flat_map(|(i, k)| k.iter().copied().chain([number(i)])).collect();
            let mut beside = keys[goal].clone();
            let at = rng.below(beside.len());
            beside[at] = beside[at].wrapping_add(*rng.of(&[1, 255]));
            for key in [&keys[goal], &keys[rng.below(count)], &beside] {
                let want = keys.iter().position(|k| k == key).is_some_and(|i| number(i) == 0).then_some(0);
                let ours = cubesim_proved::ida_star(n, key, &table, 3, &[], 0, &mut vec![5; 6 * n * n], &mut []).unwrap();
                tally.same("ida_star with limit 0 on any bytes, a lookup each", &want, &ours, || format!("size {n}, key {key:?}, table {table:?}"));
            }
        }
    }
}
