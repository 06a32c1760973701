//! Times the crate and the proved library beside it: the same inputs, one run, both built for release. Prints a table of medians and ratios.
//!
//!   bench [PART..]     moves, lists, tables, search, algorithms; by default all five
use compare::crate_side::{codes, letters, mvs};
use compare::rng::Rng;
use cubesim::prelude::open::{ida_star, PruningTable, Solver};
use cubesim::prelude::{Cube, FaceletCube, Move};
use std::collections::BTreeSet;
use std::hint::black_box;
use std::mem::discriminant;
use std::time::Instant;

/// The median of several runs, in nanoseconds.
fn median(runs: usize, mut f: impl FnMut()) -> f64 {
    let mut times: Vec<f64> = (0..runs)
        .map(|_| {
            let start = Instant::now();
            f();
            start.elapsed().as_nanos() as f64
        })
        .collect();
    times.sort_by(f64::total_cmp);
    times[runs / 2]
}

/// The median of several runs of so many calls, in nanoseconds for a call. What the calls return is freed after the clock has stopped.
fn median_of_calls<T>(runs: usize, calls: usize, mut f: impl FnMut() -> T) -> f64 {
    let mut times: Vec<f64> = (0..runs)
        .map(|_| {
            let mut kept = Vec::with_capacity(calls);
            let start = Instant::now();
            for _ in 0..calls {
                kept.push(black_box(f()));
            }
            start.elapsed().as_nanos() as f64 / calls as f64
        })
        .collect();
    times.sort_by(f64::total_cmp);
    times[runs / 2]
}

fn shown(ns: f64) -> String {
    match ns {
        x if x < 1e3 => format!("{x:.0} ns"),
        x if x < 1e6 => format!("{:.2} µs", x / 1e3),
        x if x < 1e9 => format!("{:.2} ms", x / 1e6),
        x => format!("{:.2} s", x / 1e9),
    }
}

fn row(job: &str, crates: f64, ours: f64) {
    let ratio = crates / ours;
    let digits = if ratio < 0.01 { 5 } else { 2 };
    println!("| {job} | {} | {} | {ratio:.digits$} |", shown(crates), shown(ours));
}

/// A list of face moves, and one with every kind of move.
fn moving(rng: &mut Rng) {
    for (n, count, runs) in [(3usize, 1000usize, 401), (7, 1000, 401), (20, 1000, 101), (104, 100, 51)] {
        let face: Vec<u16> = (0..count).map(|_| (rng.below(6) * 4 + 1 + rng.below(3)) as u16).collect();
        let any = rng.codes(n.min(6), count);
        for (name, list) in [("face moves", &face), ("moves of all kinds, widths to 6", &any)] {
            let ms = mvs(list);
            let cube = FaceletCube::new(n as i32);
            black_box(cube.apply_moves(&ms));
            let crates = median(runs, || drop(black_box(cube.apply_moves(black_box(&ms))))) / count as f64;
            let (mut state, mut work) = (letters(&cube.state()), vec![0u8; 6 * n * n]);
            let ours = median(runs, || cubesim_proved::apply_moves(n, black_box(&mut state), &mut work, black_box(list)).unwrap()) / count as f64;
            row(&format!("a move in a list, n = {n}, {name}, warm"), crates, ours);
        }
    }
    // sizes that the crate has not seen yet in this run: it computes each move's permutation on first use
    for n in [4usize, 8, 21, 103] {
        let ms = mvs(&[1]);
        let cube = FaceletCube::new(n as i32);
        let crates = median(1, || drop(black_box(cube.apply_moves(&ms))));
        let (mut state, mut work) = (letters(&cube.state()), vec![0u8; 6 * n * n]);
        let ours = median(1, || cubesim_proved::apply_moves(n, &mut state, &mut work, &[1]).unwrap());
        row(&format!("one move, n = {n}, first use"), crates, ours);
    }
}

/// 1 MiB of face moves.
fn scramble(rng: &mut Rng) -> Vec<u8> {
    let mut text = Vec::new();
    while text.len() < 1 << 20 {
        text.push(*rng.of(b"URFLDB"));
        text.extend(rng.of(&["", "2", "'"]).bytes());
        text.push(b' ');
    }
    text
}

fn listing(rng: &mut Rng) {
    let text = scramble(rng);
    let owned = String::from_utf8(text.clone()).unwrap();
    let mut out = vec![0u16; text.len()];
    let count = cubesim_proved::parse_scramble(3, &text, &mut out).unwrap();
    let crates = median(11, || drop(black_box(cubesim::parse_scramble(owned.clone()))));
    let ours = median(11, || {
        black_box(cubesim_proved::parse_scramble(3, black_box(&text), &mut out).unwrap());
    });
    row(&format!("parse 1 MiB, {count} tokens"), crates, ours);
    let list = out[..count].to_vec();
    let mut bytes = vec![0u8; text.len()];
    let written = median(11, || {
        black_box(cubesim_proved::write_scramble(3, black_box(&list), &mut bytes).unwrap());
    });
    println!("| write that list (the crate has no writer) | – | {} | – |", shown(written));
    let ms = mvs(&list);
    let crates = median(11, || drop(black_box(cubesim::simplify_moves(black_box(&ms)))));
    let ours = median(11, || {
        black_box(cubesim_proved::simplify_moves(3, black_box(&list), &mut out).unwrap());
    });
    row("simplify that list", crates, ours);
    let half: Vec<u16> = (0..1000).map(|i| if i % 2 == 0 { 1 } else { 13 }).collect();
    let nested: Vec<u16> = half.iter().copied().chain(half.iter().rev().map(|c| c + 2)).collect();
    let ms = mvs(&nested);
    let crates = median(5, || drop(black_box(cubesim::simplify_moves(black_box(&ms)))));
    let ours = median(11, || {
        black_box(cubesim_proved::simplify_moves(3, black_box(&nested), &mut out).unwrap());
    });
    row("simplify 1,000 nested pairs of inverses", crates, ours);
}

fn face_moves() -> Vec<u16> {
    (0..6).flat_map(|k| (1..4).map(move |t| k * 4 + t)).collect()
}

/// How much room our table has: exactly its entries, or ten times as many.
#[derive(Clone, Copy)]
enum Room {
    Exact,
    Tenfold,
}

/// A table built by both, timed over so many runs of so many calls.
fn table(name: &str, starts: &[FaceletCube], moves: &[u16], depth: usize, room: Room, runs: usize, calls: usize) {
    let ms = mvs(moves);
    let flat: Vec<u8> = starts.iter().flat_map(|c| letters(&c.state())).collect();
    let entries = PruningTable::new(starts, depth as i32, &ms).entries().len();
    let crates = median_of_calls(runs, calls, || PruningTable::new(black_box(starts), depth as i32, black_box(&ms)));
    let (times, said) = match room {
        Room::Exact => (1, "exact room"),
        Room::Tenfold => (10, "room for ten times as many"),
    };
    let mut table = vec![0u8; entries * times * 55];
    let ours = median_of_calls(runs, calls, || {
        let count = cubesim_proved::pruning_table(3, black_box(&flat), black_box(moves), depth, black_box(&mut table)).unwrap();
        assert_eq!(count, entries);
    });
    row(&format!("table n = 3, {name}, {entries} entries, {said}"), crates, ours);
}

/// So many different cubes, the places of a walk of random face moves.
fn walked(rng: &mut Rng, faces: &[u16], count: usize) -> Vec<FaceletCube> {
    let (mut cube, mut seen, mut all) = (FaceletCube::new(3), BTreeSet::new(), Vec::new());
    while all.len() < count {
        cube = cube.apply_moves(&mvs(&[*rng.of(faces)]));
        if seen.insert(letters(&cube.state())) {
            all.push(cube.clone());
        }
    }
    all
}

/// Tables from one entry to more than an index of 262,144 slots can hold at once, the largest last.
fn building(rng: &mut Rng) {
    let halves = [2u16, 22, 10, 18, 6, 14];
    let faces = face_moves();
    let solved = [FaceletCube::new(3)];
    for (depth, runs, calls) in [(0, 301, 100), (1, 301, 20), (2, 301, 5), (4, 301, 1), (6, 31, 1), (8, 3, 1)] {
        table(&format!("6 half turns, depth {depth}"), &solved, &halves, depth, Room::Exact, runs, calls);
    }
    table("U alone, depth 20", &solved, &[1], 20, Room::Exact, 301, 20);
    table("18 face moves, depth 2", &solved, &faces, 2, Room::Exact, 301, 1);
    table("18 face moves, depth 4", &solved, &faces, 4, Room::Exact, 5, 1);
    table("18 face moves, depth 4", &solved, &faces, 4, Room::Tenfold, 5, 1);
    table("100000 starting cubes, depth 0", &walked(rng, &faces, 100_000), &faces, 0, Room::Exact, 3, 1);
    table("18 face moves, depth 5", &solved, &faces, 5, Room::Exact, 3, 1);
}

/// How many states a pass of the search visits, a visit being one call of the crate's `dfs`; and whether it ends at a goal.
fn visits(cube: &FaceletCube, solver: &Solver, last: Option<Move>, left: i32, count: &mut u64) -> bool {
    *count += 1;
    if solver.is_solved(cube) {
        return true;
    }
    if left < solver.lower_bound(cube) {
        return false;
    }
    let free = |m: &&Move| last.is_none_or(|l| discriminant(&l) != discriminant(*m));
    solver.candidate_moves.iter().filter(free).any(|m| visits(&cube.apply_move(*m), solver, Some(*m), left - 1, count))
}

/// A cube so many moves away, and no fewer.
fn away(rng: &mut Rng, solver: &Solver, length: usize) -> FaceletCube {
    loop {
        let list: Vec<u16> = (0..length).map(|_| (rng.below(6) * 4 + 1 + rng.below(3)) as u16).collect();
        let cube = FaceletCube::new(3).apply_moves(&mvs(&list));
        if ida_star(&cube, solver, length as i32 - 1).is_none() {
            return cube;
        }
    }
}

/// A number with its thousands apart.
fn grouped(count: usize) -> String {
    let digits = count.to_string();
    let groups: Vec<&str> = digits.as_bytes().rchunks(3).rev().map(|g| std::str::from_utf8(g).unwrap()).collect();
    groups.join(",")
}

/// What a table is called in a row.
fn named(depth: usize, entries: usize) -> String {
    format!("table of depth {depth}, {} {}", grouped(entries), if entries == 1 { "entry" } else { "entries" })
}

/// A search of a cube so many moves away, timed per visit; both sides make the same visits, as face moves have no widths.
fn visiting(rng: &mut Rng, solver: &Solver, table: &[u8], faces: &[u16], depth: usize, length: usize) {
    let cube = away(rng, solver, length);
    let from = letters(&cube.state());
    let mut count = 0;
    assert!((0..=length as i32).any(|limit| visits(&cube, solver, None, limit, &mut count)));
    let crates = median(3, || drop(black_box(ida_star(&cube, solver, length as i32).map(|l| codes(&l)))));
    let (mut work, mut out) = (vec![0u8; (length + 1) * 54], vec![0u16; length]);
    let ours = median(3, || {
        black_box(cubesim_proved::ida_star(3, &from, table, depth, faces, length, &mut work, &mut out).unwrap());
    });
    let job = format!("a visit, {}, {length} moves away, {} visits", named(depth, table.len() / 55), grouped(count as usize));
    row(&job, crates / count as f64, ours / count as f64);
}

/// Searches at n = 3 with 18 face moves and tables from 1 to 621,649 entries, and for each table a call of one visit.
fn searching(rng: &mut Rng) {
    let faces = face_moves();
    let ms = mvs(&faces);
    let solved = FaceletCube::new(3);
    for (depth, lengths) in [(3usize, &[7usize, 8, 9][..]), (0, &[5]), (4, &[9, 10]), (5, &[9, 10])] {
        let solver = Solver::new(ms.clone(), PruningTable::new(&[solved.clone()], depth as i32, &ms));
        let mut entries: Vec<(Vec<u8>, i32)> = solver.pruning_table.entries().iter().map(|(k, v)| (letters(k), *v)).collect();
        entries.sort();
        let table: Vec<u8> = entries.iter().flat_map(|(k, v)| k.iter().copied().chain([*v as u8])).collect();
        for length in lengths {
            visiting(rng, &solver, &table, &faces, depth, *length);
        }
        let crates = median_of_calls(11, 1, || ida_star(black_box(&solved), &solver, 0).map(|l| codes(&l)));
        let (from, mut work) = (letters(&solved.state()), vec![0u8; 54]);
        let ours = median_of_calls(11, 1, || cubesim_proved::ida_star(3, black_box(&from), &table, depth, &faces, 0, &mut work, &mut []).unwrap());
        row(&format!("a search of one visit, {}", named(depth, entries.len())), crates, ours);
    }
}

/// The medians of two jobs over one slice of codes, in nanoseconds. Their runs take turns, so that both meet the same hours of the machine.
fn beside(runs: usize, codes: &mut [u16], other: impl Fn(&mut [u16]), ours: impl Fn(&mut [u16])) -> (f64, f64) {
    let mut times = [Vec::new(), Vec::new()];
    for _ in 0..runs {
        times[0].push(median(1, || other(black_box(codes))));
        times[1].push(median(1, || ours(black_box(codes))));
    }
    let [theirs, ours] = times.map(|mut all| {
        all.sort_by(f64::total_cmp);
        all[runs / 2]
    });
    (theirs, ours)
}

/// A row against a job that is not the crate's: the crate has no groups.
fn row_beside(job: &str, other: &str, (theirs, ours): (f64, f64)) {
    println!("| {job} | {other} | {} | {} | {:.2} |", shown(theirs), shown(ours), theirs / ours);
}

/// Seven levels of commutators and conjugates in turn, each half another, down to sixteen face moves nine times over: 995,328 moves.
fn halves(rng: &mut Rng, levels: usize) -> String {
    if levels == 0 {
        let moves: Vec<String> = (0..16).map(|_| format!("{}{}", *rng.of(b"URFLDB") as char, rng.of(&["", "2", "'"]))).collect();
        return format!("({})9", moves.join(" "));
    }
    let (first, second) = (halves(rng, levels - 1), halves(rng, levels - 1));
    format!("[{first}{} {second}]", if levels % 2 == 1 { ',' } else { ':' })
}

fn read_scramble(text: &[u8], out: &mut [u16]) -> usize {
    black_box(cubesim_proved::parse_scramble(3, black_box(text), out).unwrap())
}

fn read_algorithm(text: &[u8], out: &mut [u16]) -> usize {
    black_box(cubesim_proved::parse_algorithm(3, black_box(text), out).unwrap())
}

/// An algorithm without groups, or with many small ones, beside parse_scramble on a text of the same moves.
fn reading(job: &str, algorithm: &[u8], other: &str, scramble: &[u8]) {
    let (mut codes, mut same) = (vec![0u16; scramble.len()], vec![0u16; scramble.len()]);
    let count = read_algorithm(algorithm, &mut codes);
    assert!(count == read_scramble(scramble, &mut same) && codes == same);
    let times = beside(31, &mut codes, |out| _ = read_scramble(scramble, out), |out| _ = read_algorithm(algorithm, out));
    row_beside(&format!("{job}, {} moves", grouped(count)), other, times);
}

/// An expansion to about a million moves beside a loop that stores as many codes into the same slice: as the compiler likes, several at a time, and each code
/// by itself.
fn expanding(job: &str, text: &[u8]) {
    let mut codes = vec![0u16; 1_100_000];
    let count = read_algorithm(text, &mut codes);
    let (job, pair) = (format!("{job}, {} moves", grouped(count)), [13u16, 1]);
    let ours = |out: &mut [u16]| _ = read_algorithm(text, out);
    let stored = |out: &mut [u16]| out[..count].iter_mut().enumerate().for_each(|(i, slot)| *slot = pair[i % 2]);
    row_beside(&job, "a loop that stores as many codes", beside(51, &mut codes, stored, ours));
    let apart = |out: &mut [u16]| out[..count].iter_mut().enumerate().for_each(|(i, slot)| *slot = black_box(pair[i % 2]));
    row_beside(&job, "the same loop, each code by itself", beside(51, &mut codes, apart, ours));
}

/// Algorithms beside parse_scramble and beside storing their moves; and groups of nothing.
fn grouping(rng: &mut Rng) {
    println!("| job | held against | its time | here | its time / here |\n|---|---|---|---|---|");
    let plain = scramble(rng);
    reading("algorithm without groups, 1 MiB", &plain, "parse_scramble, the same text", &plain);
    reading("65,536 times [R,U]", "[R,U]".repeat(1 << 16).as_bytes(), "parse_scramble, the same moves", "R U R' U' ".repeat(1 << 16).as_bytes());
    expanding("((((((R U)9)9)9)9)9)9", b"((((((R U)9)9)9)9)9)9");
    expanding("seven levels of commutators and conjugates", halves(rng, 7).as_bytes());
    for text in ["()", "(((((((()9)9)9)9)9)9)9)9", "[[[[[[[[:]:]:]:]:]:]:]:]"] {
        let ours = median_of_calls(301, 1_000, || read_algorithm(text.as_bytes(), &mut []));
        println!("| {text}, 0 moves | – | – | {} | – |", shown(ours));
    }
}

/// Half a second of work, so that the first rows are not timed on a processor that is still waking.
fn wake() {
    let (start, cube, ms) = (Instant::now(), FaceletCube::new(3), mvs(&face_moves()));
    while start.elapsed().as_millis() < 500 {
        black_box(cube.apply_moves(black_box(&ms)));
    }
}

fn main() {
    let asked: Vec<String> = std::env::args().skip(1).collect();
    // each part has its own seed, so that its inputs are the same when it is asked for alone
    // the algorithms' seed is the lists', so that the text without groups is the one that the lists have
    let parts: [(&str, fn(&mut Rng), u64); 5] = [
        ("moves", moving, 20261115),
        ("lists", listing, 0x4cb0_0e2d_492a_f5e3),
        ("tables", building, 20261115),
        ("search", searching, 0xe956_bbba_f7e4_cb5b),
        ("algorithms", grouping, 0x4cb0_0e2d_492a_f5e3),
    ];
    if let Some(other) = asked.iter().find(|a| parts.iter().all(|(name, _, _)| name != a)) {
        eprintln!("bench: {other} is not one of moves, lists, tables, search, algorithms");
        std::process::exit(2);
    }
    wake();
    let wanted: Vec<_> = parts.iter().filter(|(name, _, _)| asked.is_empty() || asked.iter().any(|a| a == name)).collect();
    if wanted.iter().any(|(name, _, _)| *name != "algorithms") {
        println!("| job | the crate | here | crate / here |\n|---|---|---|---|");
    }
    for (name, part, seed) in wanted {
        // algorithms have a table of their own: the crate has no groups
        if *name == "algorithms" && asked.len() != 1 {
            println!();
        }
        part(&mut Rng(*seed));
    }
}
