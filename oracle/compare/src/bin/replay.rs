//! Writes records of the crate's answers that `stations` replays, a record a line, to standard output, and the counts to standard error.
//! Every answer is the crate's, or (write_scramble, invert_moves, parse_algorithm, which the crate lacks) is read back, undone or followed by it; the
//! library is not called.
//! What a record says besides, of lent slices and counts, is the rules' (crates/stations/RECORDS.md).
//!
//!   replay [SEED]
use compare::crate_side::{code, codes, face, faces, ids, letters, mvs};
use compare::rng::Rng;
use compare::{grammar, groups, inputs};
use cubesim::prelude::{Cube, FaceletCube, MoveVariant};
use std::collections::BTreeMap;

const SEED: u64 = 20261116;

/// The longest line, without its line feed, of records that are drawn until one is short enough.
const LONG: usize = 1_200;

fn words<T: ToString>(xs: &[T]) -> String {
    xs.iter().map(T::to_string).collect::<Vec<_>>().join(" ")
}

/// Runs of equal elements, each with its length.
fn runs<T: PartialEq + Copy>(xs: &[T]) -> Vec<(T, usize)> {
    let mut out: Vec<(T, usize)> = Vec::new();
    for x in xs {
        match out.last_mut() {
            Some((last, count)) if last == x => *count += 1,
            _ => out.push((*x, 1)),
        }
    }
    out
}

/// Bytes as a record spells them: itself, `#v;`, or `#vxk;` for k of them.
fn bytes(bs: &[u8]) -> String {
    let one = |b: u8, k: usize| match b {
        b'|' | b'=' | b'#' | 0..=31 | 127..=255 if k == 1 => format!("#{b};"),
        b'|' | b'=' | b'#' | 0..=31 | 127..=255 => format!("#{b}x{k};"),
        _ => (b as char).to_string().repeat(k),
    };
    runs(bs).into_iter().map(|(b, k)| one(b, k)).collect()
}

/// Numbers as a record spells them: `v`, or `vxk` for more than two of them.
fn numbers(xs: &[u16]) -> String {
    let one = |(v, k): (u16, usize)| if k > 2 { vec![format!("{v}x{k}")] } else { vec![v.to_string(); k] };
    runs(xs).into_iter().flat_map(one).collect::<Vec<_>>().join(" ")
}

/// What is lent before a call: sevens, and nines.
fn sevens(count: usize) -> Vec<u8> {
    vec![7; count]
}

fn nines(count: usize) -> Vec<u16> {
    vec![9; count]
}

/// A list over the front of a lent slice that has some room to spare.
fn over<T: Copy>(list: &[T], lent: &[T]) -> Vec<T> {
    [list, &lent[list.len()..]].concat()
}

fn text(bytes: &[u8]) -> String {
    String::from_utf8(bytes.to_vec()).unwrap()
}

fn state(cube: &FaceletCube) -> Vec<u8> {
    letters(&cube.state())
}

fn new(n: usize) -> FaceletCube {
    FaceletCube::new(n as i32)
}

fn entries(table: &inputs::Entries) -> Vec<u8> {
    table.iter().flat_map(|(cube, number)| [&cube[..], &[*number as u8]].concat()).collect()
}

/// All single moves of a size.
fn single_moves(n: usize) -> Vec<u16> {
    let kinds = (0..15u16).flat_map(|kind| {
        let widths = if (6..12).contains(&kind) { 1..=n as u16 } else { 0..=0 };
        widths.map(move |width| width * 64 + kind * 4)
    });
    kinds.flat_map(|c| (1..=3).map(move |turn| c + turn)).collect()
}

/// One move of each kind.
fn each_kind(rng: &mut Rng, n: usize) -> Vec<u16> {
    (0..15u16)
        .map(|kind| loop {
            let c = rng.code(n);
            if c / 4 % 16 == kind {
                break c;
            }
        })
        .collect()
}

/// The lines, in the order in which they are replayed.
struct List(Vec<String>);

impl List {
    /// What is lent, the value, and what becomes of each lent slice; nothing is refused.
    fn add(&mut self, entry: &str, numbers: [usize; 3], lent: Lent, value: usize, after: Lent) {
        let line = [&[entry.to_string()], &numbers.map(|x| x.to_string())[..], &lent.fields()].concat().join("|");
        self.0.push(format!("{line}|=0 {value}|{}", after.after(&lent).join("|")));
    }

    fn moved(&mut self, cube: &FaceletCube, n: usize, list: &[u16]) {
        let m = 6 * n * n;
        let lent = Lent::of([state(cube), sevens(m)], [list.to_vec()]);
        let after = Lent::of([state(&cube.apply_moves(&mvs(list))), vec![0; m]], [list.to_vec()]);
        self.add("apply_moves", [n, 0, 0], lent, 0, after);
    }

    fn moved_ids(&mut self, cube: &FaceletCube, n: usize, list: &[u16]) {
        let m = 6 * n * n;
        let lent = Lent::of([], [ids(cube), nines(m), list.to_vec()]);
        let after = Lent::of([], [ids(&cube.apply_moves(&mvs(list))), vec![0; m], list.to_vec()]);
        self.add("apply_moves_to_ids", [n, 0, 0], lent, 0, after);
    }

    /// An entry that fills an output with codes, with two slots to spare.
    fn filled(&mut self, entry: &str, n: usize, text: &[u8], moves: Option<&[u16]>, codes: &[u16], room: usize) {
        let out = nines(room + 2);
        let stored = over(&[codes, &vec![0; room - codes.len()]].concat(), &out);
        let lists = |out: Vec<u16>| moves.map(|l| l.to_vec()).into_iter().chain([out]).collect::<Vec<_>>();
        let lent = Lent { bytes: vec![text.to_vec()], numbers: lists(out.clone()) };
        self.add(entry, [n, 0, 0], lent, codes.len(), Lent { bytes: vec![text.to_vec()], numbers: lists(stored) });
    }
}

/// The slices that an entry is lent, of bytes and of numbers.
struct Lent {
    bytes: Vec<Vec<u8>>,
    numbers: Vec<Vec<u16>>,
}

impl Lent {
    fn of<const B: usize, const N: usize>(bytes: [Vec<u8>; B], numbers: [Vec<u16>; N]) -> Lent {
        Lent { bytes: bytes.to_vec(), numbers: numbers.to_vec() }
    }

    /// Three fields of bytes and three of numbers, empty where fewer are lent.
    fn fields(&self) -> Vec<String> {
        let one = |k: usize| self.bytes.get(k).map_or(String::new(), |b| bytes(b));
        let two = |k: usize| self.numbers.get(k).map_or(String::new(), |b| numbers(b));
        (0..3).map(one).chain((0..3).map(two)).collect()
    }

    /// The same, `~` for what is as it was.
    fn after(&self, before: &Lent) -> Vec<String> {
        self.fields().into_iter().zip(before.fields()).map(|(new, old)| if new == old { "~".to_string() } else { new }).collect()
    }
}

fn cubes(list: &mut List, rng: &mut Rng) {
    for n in (1..=16).chain([26]) {
        list.add("solved", [n, 0, 0], Lent::of([sevens(6 * n * n)], []), 0, Lent::of([state(&new(n))], []));
    }
    for n in (1..=10).chain([13]) {
        list.add("solved_ids", [n, 0, 0], Lent::of([], [nines(6 * n * n)]), 0, Lent::of([], [ids(&new(n))]));
    }
    for _ in 0..300 {
        let n = 1 + rng.below(5);
        let cube = inputs::painted(rng, n);
        let answer = FaceletCube::from(faces(&cube)).is_solved() as usize;
        list.add("is_solved", [n, 0, 0], Lent::of([cube.clone()], []), answer, Lent::of([cube], []));
    }
    for _ in 0..100 {
        let n = 1 + rng.below(4);
        let length = rng.below(12);
        let turned = new(n).apply_moves(&mvs(&rng.codes(n, length)));
        let keep = inputs::keep(rng, n);
        let masked = turned.mask(&|i, f| if keep[i as usize] == 0 { cubesim::Face::X } else { f });
        let lent = Lent::of([state(&turned), keep.clone()], [ids(&turned)]);
        list.add("mask", [n, 0, 0], lent, 0, Lent::of([state(&masked), keep], [ids(&turned)]));
    }
}

fn sticker_indices(list: &mut List, rng: &mut Rng) {
    let small = (1..=4usize).flat_map(|n| b"URFDLB".iter().flat_map(move |f| (1..=n * n).map(move |i| (n, *f, i))));
    let large: Vec<_> = (0..240)
        .map(|_| {
            let n = 5 + rng.below(100);
            (n, *rng.of(b"URFDLB"), 1 + rng.below(n * n))
        })
        .collect();
    for (n, letter, index) in small.chain(large) {
        let answer = cubesim::sticker_index(n as i32, face(letter), index as i32);
        list.add("sticker_index", [n, index, 0], Lent::of([vec![letter]], []), answer as usize, Lent::of([vec![letter]], []));
    }
}

/// Every move of the sizes 1 to 4, one of each kind of some larger ones, and lists on turned cubes.
fn moving(list: &mut List, rng: &mut Rng) {
    for n in 1..=4 {
        single_moves(n).iter().for_each(|c| list.moved(&new(n), n, &[*c]));
    }
    for n in [5, 6, 7, 11] {
        each_kind(rng, n).iter().for_each(|c| list.moved(&new(n), n, &[*c]));
    }
    for round in 0..160 {
        let n = if round % 32 == 31 { 11 } else { 1 + round % 7 };
        let length = rng.below(20);
        list.moved(&inputs::cube(rng, n), n, &rng.codes(n, length));
    }
    for n in 1..=3 {
        single_moves(n).iter().for_each(|c| list.moved_ids(&new(n), n, &[*c]));
    }
    for round in 0..50 {
        let n = 1 + round % 6;
        let (before, after) = (rng.below(10), rng.below(20));
        let turned = new(n).apply_moves(&mvs(&rng.codes(n, before)));
        list.moved_ids(&turned, n, &rng.codes(n, after));
    }
}

/// A code as the writer spells it: the width 2 is left out.
fn spelled(c: u16) -> String {
    let (kind, width, turn) = (c as usize / 4 % 16, c / 64, c as usize % 4);
    let letter = ["U", "L", "F", "R", "B", "D", "U", "L", "F", "R", "B", "D", "x", "y", "z"][kind];
    let front = if width > 2 { width.to_string() } else { String::new() };
    format!("{front}{letter}{}{}", if width > 0 { "w" } else { "" }, ["", "", "2", "'"][turn])
}

/// Texts of the domain.
fn texts(list: &mut List, rng: &mut Rng) {
    let mut left = 400;
    while left > 0 {
        let n = 1 + rng.below(104);
        let s = inputs::text(rng);
        if grammar::in_domain(&s) && grammar::text(n, &s).is_ok() {
            let moves = codes(&cubesim::parse_scramble(text(&s)));
            list.filled("parse_scramble", n, &s, None, &moves, moves.len());
            left -= 1;
        }
    }
    for _ in 0..350 {
        let n = 1 + rng.below(20);
        let length = rng.below(16);
        let mut moves = rng.codes(n, length);
        moves.retain(|c| c / 64 != 1 && c / 64 < n as u16 && c / 64 < 10);
        let spelling = words(&moves.iter().map(|c| spelled(*c)).collect::<Vec<_>>());
        assert_eq!(codes(&cubesim::parse_scramble(spelling.clone())), moves, "the crate reads {spelling:?} otherwise");
        let lent = sevens(spelling.len() + 2);
        let after = Lent::of([over(spelling.as_bytes(), &lent)], [moves.clone()]);
        list.add("write_scramble", [n, 0, 0], Lent::of([lent], [moves]), spelling.len(), after);
    }
}

/// The moves backwards, each turned the other way; checked by the crate's own moves on ids.
fn inverse(n: usize, moves: &[u16]) -> Vec<u16> {
    let back: Vec<_> = mvs(moves)
        .iter()
        .rev()
        .map(|m| {
            m.with_variant(match m.get_variant() {
                MoveVariant::Standard => MoveVariant::Inverse,
                MoveVariant::Double => MoveVariant::Double,
                MoveVariant::Inverse => MoveVariant::Standard,
            })
        })
        .collect();
    assert_eq!(ids(&new(n).apply_moves(&mvs(moves)).apply_moves(&back)), ids(&new(n)));
    back.into_iter().map(code).collect()
}

fn lists(list: &mut List, rng: &mut Rng) {
    for n in (1..=20).chain([33, 52, 104]) {
        let moves = codes(&cubesim::all_moves(n as i32));
        list.filled("all_moves", n, &[], None, &moves, moves.len());
    }
    for round in 0..400 {
        let n = 1 + rng.below(12);
        let moves = inputs::joining_list(rng, n, round % 100 == 0);
        let joined = codes(&cubesim::simplify_moves(&mvs(&moves)));
        list.filled("simplify_moves", n, &[], Some(&moves), &joined, moves.len());
    }
    for _ in 0..300 {
        let n = 1 + rng.below(12);
        let length = rng.below(16);
        let moves = rng.codes(n, length);
        list.filled("invert_moves", n, &[], Some(&moves), &inverse(n, &moves), moves.len());
    }
}

fn tables(list: &mut List, rng: &mut Rng) {
    let mut left = 150;
    while left > 0 {
        let asked = inputs::Build::new(rng);
        let starts: Vec<u8> = asked.starts.iter().flat_map(state).collect();
        let table = asked.crates();
        let stored = entries(&table);
        if stored.len() + starts.len() < LONG && asked.n <= 3 {
            let lent = sevens(stored.len() + 6 * asked.n * asked.n + 3);
            let after = Lent::of([starts.clone(), over(&stored, &lent)], [asked.moves.clone()]);
            list.add("pruning_table", [asked.n, asked.depth, 0], Lent::of([starts, lent], [asked.moves.clone()]), table.len(), after);
            left -= 1;
        }
    }
}

/// Half of them on spoiled tables; of each half every other one finds a list that is not empty, which few searches do by chance.
fn searches(list: &mut List, rng: &mut Rng) {
    let mut left = 240;
    while left > 0 {
        let asked = inputs::Search::new(rng, left % 2 == 1, inputs::Widths::One);
        let table = entries(&asked.entries);
        let found = asked.crates();
        if table.len() < LONG && (left % 4 < 2 || found.iter().any(|moves| !moves.is_empty())) {
            let need = (asked.limit + 1) * 6 * asked.n * asked.n;
            let (work, out) = (sevens(need + 2), nines(asked.limit + 2));
            let value = found.as_ref().map_or(0, |moves| moves.len() + 1);
            let zeroed = over(&vec![0; need], &work);
            let stored = over(&found.unwrap_or_default(), &out);
            let lent = Lent::of([asked.from.clone(), table.clone(), work], [asked.moves.clone(), out]);
            let after = Lent::of([asked.from.clone(), table, zeroed], [asked.moves.clone(), stored]);
            list.add("ida_star", [asked.n, asked.depth, asked.limit], lent, value, after);
            left -= 1;
        }
    }
}

/// Text without groups, which the crate reads itself, and drawn groups up to eight deep. Those are expanded by the second reading; the crate must read
/// the expansion's spelling as that list, and come by it to the same ids as by its single moves, followed and undone as the groups say.
fn algorithms(list: &mut List, rng: &mut Rng) {
    let mut left = 100;
    while left > 0 {
        let n = 1 + rng.below(104);
        let s = inputs::text(rng);
        if grammar::in_domain(&s) && grammar::text(n, &s).is_ok() {
            let moves = codes(&cubesim::parse_scramble(text(&s)));
            list.filled("parse_algorithm", n, &s, None, &moves, moves.len());
            left -= 1;
        }
    }
    left = 200;
    while left > 0 {
        let (n, levels) = (1 + rng.below(6), 1 + left % 8);
        let s = inputs::algorithm(rng, n, levels);
        let Ok(sequence) = groups::text(n, &s) else { panic!("refused: {}", bytes(&s)) };
        if (1..150).contains(&sequence.length()) {
            let moves = sequence.expansion();
            let spelling = words(&moves.iter().map(|c| spelled(*c)).collect::<Vec<_>>());
            assert_eq!(codes(&cubesim::parse_scramble(spelling.clone())), moves, "the crate reads {spelling:?} otherwise");
            assert_eq!(ids(&new(n).apply_moves(&mvs(&moves))), sequence.effect(n), "the crate is led elsewhere by {spelling:?}");
            list.filled("parse_algorithm", n, &s, None, &moves, moves.len());
            left -= 1;
        }
    }
}

fn main() {
    let seed = std::env::args().nth(1).map_or(SEED, |s| s.parse().expect("a seed is a number"));
    let mut rng = Rng(seed);
    let mut list = List(Vec::new());
    cubes(&mut list, &mut rng);
    sticker_indices(&mut list, &mut rng);
    moving(&mut list, &mut rng);
    texts(&mut list, &mut rng);
    lists(&mut list, &mut rng);
    tables(&mut list, &mut rng);
    searches(&mut list, &mut rng);
    algorithms(&mut list, &mut rng);
    let mut counts = BTreeMap::new();
    for line in &list.0 {
        *counts.entry(line.split('|').next().unwrap()).or_insert(0) += 1;
        println!("{line}");
    }
    counts.iter().for_each(|(entry, count)| eprintln!("{count:>6}  {entry}"));
    eprintln!("{:>6}  answers, seed {seed}", list.0.len());
}
