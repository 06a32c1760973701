//! Inputs inside the rules' domain of equality, and of searches outside it too; what the crate makes of those of tables and searches, and what the rules
//! make of a search.
use crate::crate_side::{codes, faces, letters, mv, mvs, LETTERS};
use crate::grammar;
use crate::rng::Rng;
use cubesim::prelude::open::{ida_star, PruningTable, Solver};
use cubesim::prelude::{Cube, FaceletCube};

/// A list where each wide kind has one width; of few kinds, so that many join.
pub fn joining_list(rng: &mut Rng, n: usize, long: bool) -> Vec<u16> {
    let widths: Vec<u16> = (0..6).map(|_| 1 + rng.below(n) as u16).collect();
    let some: Vec<u16> = (0..1 + rng.below(4)).map(|_| rng.below(15) as u16).collect();
    let length = if long { 300 } else { rng.below(14) };
    (0..length)
        .map(|_| {
            let kind = *rng.of(&some);
            let width = if (6..12).contains(&kind) { widths[kind as usize - 6] } else { 0 };
            width * 64 + kind * 4 + 1 + rng.below(3) as u16
        })
        .collect()
}

/// A keep byte for each sticker.
pub fn keep(rng: &mut Rng, n: usize) -> Vec<u8> {
    (0..6 * n * n).map(|_| rng.below(3) as u8).collect()
}

/// A solved cube in any colours, or one with a sticker or two changed.
pub fn painted(rng: &mut Rng, n: usize) -> Vec<u8> {
    let mut cube: Vec<u8> = (0..6).flat_map(|_| vec![*rng.of(LETTERS); n * n]).collect();
    for _ in 0..rng.below(3) {
        let at = rng.below(cube.len());
        cube[at] = *rng.of(LETTERS);
    }
    cube
}

const SPACES: &[u8; 11] = b"\t\n\x0b\x0c\r      ";

/// A token of the grammar, whatever the size.
fn token(rng: &mut Rng, s: &mut Vec<u8>) {
    let letters = b"URFLDB";
    match rng.below(3) {
        0 => s.push(*rng.of(b"xyz")),
        1 => s.push(*rng.of(letters)),
        _ => {
            match rng.below(4) {
                0 => s.extend((1 + rng.below(110)).to_string().bytes()),
                1 => s.push(b'3' + rng.below(7) as u8),
                _ => (),
            }
            s.push(*rng.of(letters));
            s.push(b'w');
        }
    }
    match rng.below(3) {
        0 => s.push(b'2'),
        1 => s.push(b'\''),
        _ => (),
    }
}

/// Tokens of the grammar, now and then damaged, with any of the spaces between them.
pub fn text(rng: &mut Rng) -> Vec<u8> {
    let mut s = Vec::new();
    for _ in 0..rng.below(12) {
        for _ in 0..1 + rng.below(2) {
            s.push(*rng.of(SPACES));
        }
        token(rng, &mut s);
        if rng.below(40) == 0 {
            let at = rng.below(s.len());
            s[at] = rng.below(128) as u8;
        }
    }
    s
}

/// A token that size n takes.
fn fitting(rng: &mut Rng, n: usize) -> Vec<u8> {
    loop {
        let mut one = Vec::new();
        token(rng, &mut one);
        if grammar::text(n, &one).is_ok() {
            return one;
        }
    }
}

/// Spaces where they are free: mostly none.
fn free_spaces(rng: &mut Rng, s: &mut Vec<u8>) {
    while rng.below(3) == 0 {
        s.push(*rng.of(SPACES));
    }
}

/// Tokens and groups that size n takes, `levels` deep in one of its groups and at most one deep in the others.
fn sequence(rng: &mut Rng, n: usize, levels: usize, s: &mut Vec<u8>) {
    let count = rng.below(4).max(levels.min(1));
    let (deep, mut after_token) = (rng.below(count.max(1)), false);
    for k in 0..count {
        free_spaces(rng, s);
        if levels > 0 && (k == deep || rng.below(4) == 0) {
            group(rng, n, if k == deep { levels - 1 } else { 0 }, s);
            after_token = false;
            continue;
        }
        if after_token {
            s.push(*rng.of(SPACES));
        }
        s.extend(fitting(rng, n));
        after_token = true;
    }
    free_spaces(rng, s);
}

/// A group whose first or second half is so deep.
fn group(rng: &mut Rng, n: usize, levels: usize, s: &mut Vec<u8>) {
    if rng.below(2) == 0 {
        s.push(b'(');
        sequence(rng, n, levels, s);
        s.push(b')');
        s.extend(rng.of(&["", "", "1", "2", "2", "3", "4", "9"]).bytes());
        return;
    }
    let first = rng.below(2) == 0;
    s.push(b'[');
    sequence(rng, n, if first { levels } else { 0 }, s);
    s.push(*rng.of(b",:"));
    sequence(rng, n, if first { 0 } else { levels }, s);
    s.push(b']');
}

/// An algorithm of tokens that size n takes, its groups so many levels deep.
pub fn algorithm(rng: &mut Rng, n: usize, levels: usize) -> Vec<u8> {
    let mut s = Vec::new();
    sequence(rng, n, levels, &mut s);
    s
}

/// A text with a byte or two put in, changed or left out, mostly bytes that algorithms are made of.
pub fn spoiled(rng: &mut Rng, text: &[u8]) -> Vec<u8> {
    let mut s = text.to_vec();
    for _ in 0..1 + rng.below(2) {
        let byte = if rng.below(8) == 0 { rng.below(256) as u8 } else { *rng.of(b"URFLDBxyzw0123456789'()[],:()[],: \tQ") };
        let at = rng.below(s.len() + 1);
        match rng.below(3) {
            0 if at < s.len() => s[at] = byte,
            1 if at < s.len() => drop(s.remove(at)),
            _ => s.insert(at, byte),
        }
    }
    s
}

/// A few candidates, with their inverses or not, now and then one of them twice.
fn candidates(rng: &mut Rng, n: usize) -> Vec<u16> {
    let mut list: Vec<u16> = (0..1 + rng.below(5)).map(|_| rng.code(n)).collect();
    if rng.below(2) == 0 {
        let back: Vec<u16> = list.iter().map(|c| c / 4 * 4 + (4 - c % 4)).collect();
        list.extend(back);
    }
    if rng.below(4) == 0 {
        list.push(list[0]);
    }
    list
}

/// Which widths a search's candidates have. Inside the domain of equality each wide kind has one.
#[derive(Clone, Copy, PartialEq)]
pub enum Widths {
    One,
    Two,
}

fn kind_and_width(code: u16) -> (u16, u16) {
    (code / 4 % 16, code / 64)
}

/// The candidates whose kind has another width among them.
fn of_two_widths(moves: &[u16]) -> Vec<u16> {
    let other = |c: u16, d: u16| c / 4 % 16 == d / 4 % 16 && c / 64 != d / 64;
    moves.iter().copied().filter(|c| moves.iter().any(|d| other(*c, *d))).collect()
}

/// Candidates of a search: of one width a kind, or with a second width of one of the wide kinds.
fn searched(rng: &mut Rng, n: usize, widths: Widths) -> Vec<u16> {
    if widths == Widths::One {
        return std::iter::repeat_with(|| candidates(rng, n)).find(|list| of_two_widths(list).is_empty()).unwrap();
    }
    let mut list = candidates(rng, n);
    let (kind, first) = (6 + rng.below(6) as u16, rng.below(n));
    for width in [first, (first + 1 + rng.below(n - 1)) % n] {
        let turn = 1 + rng.below(3) as u16;
        for t in [turn, 4 - turn] {
            list.insert(rng.below(list.len() + 1), (width as u16 + 1) * 64 + kind * 4 + t);
        }
    }
    list
}

/// A cube after a few moves, now and then with stickers hidden.
pub fn cube(rng: &mut Rng, n: usize) -> FaceletCube {
    let length = rng.below(6);
    let list = rng.codes(n, length);
    let turned = FaceletCube::new(n as i32).apply_moves(&mvs(&list));
    if rng.below(3) == 0 {
        let hidden = rng.below(6 * n * n) as i32;
        turned.mask(&|i, f| if i <= hidden { cubesim::Face::X } else { f })
    } else {
        turned
    }
}

/// A table's entries, in rising order of their cubes.
pub type Entries = Vec<(Vec<u8>, i32)>;

fn sorted(table: &PruningTable) -> Entries {
    let mut all: Entries = table.entries().iter().map(|(k, v)| (letters(k), *v)).collect();
    all.sort();
    all
}

/// A table to build.
pub struct Build {
    pub n: usize,
    pub starts: Vec<FaceletCube>,
    pub moves: Vec<u16>,
    pub depth: usize,
}

impl Build {
    pub fn new(rng: &mut Rng) -> Self {
        let n = 1 + rng.below(4);
        let starts = (0..rng.below(4)).map(|_| cube(rng, n)).collect();
        let moves = candidates(rng, n);
        Build { n, starts, moves, depth: rng.below(4) }
    }

    pub fn crates(&self) -> Entries {
        sorted(&PruningTable::new(&self.starts, self.depth as i32, &mvs(&self.moves)))
    }
}

/// A search on a built table, or on one with numbers changed and an entry missing.
pub struct Search {
    pub n: usize,
    pub from: Vec<u8>,
    pub entries: Entries,
    pub depth: usize,
    pub moves: Vec<u16>,
    pub limit: usize,
    /// the table was built from candidates with all their inverses, and nothing in it was changed
    pub admissible: bool,
}

impl Search {
    pub fn new(rng: &mut Rng, spoiled: bool, widths: Widths) -> Self {
        let n = if widths == Widths::One { 1 + rng.below(3) } else { 2 + rng.below(3) };
        let moves = searched(rng, n, widths);
        let admissible = !spoiled && moves.iter().all(|c| moves.contains(&(c / 4 * 4 + (4 - c % 4))));
        let depth = rng.below(3);
        let mut entries = sorted(&PruningTable::new(&[cube(rng, n)], depth as i32, &mvs(&moves)));
        if spoiled {
            for _ in 0..1 + rng.below(3) {
                let at = rng.below(entries.len());
                entries[at].1 = rng.below(5) as i32;
            }
            if rng.below(2) == 0 && entries.len() > 1 {
                let at = rng.below(entries.len());
                entries.remove(at);
            }
        }
        let start: Vec<u8> = letters(&cube(rng, n).state());
        let near = rng.of(&entries).0.clone();
        let (length, two) = (rng.below(3), of_two_widths(&moves));
        let made = if two.is_empty() || rng.below(2) == 0 { &moves } else { &two };
        let away: Vec<u16> = (0..length).map(|_| *rng.of(made)).collect();
        let from = if rng.below(3) == 0 { start } else { letters(&FaceletCube::from(faces(&near)).apply_moves(&mvs(&away)).state()) };
        Search { n, from, entries, depth, moves, limit: rng.below(4), admissible }
    }

    pub fn crates(&self) -> Option<Vec<u16>> {
        let keyed: Vec<_> = self.entries.iter().map(|(k, v)| (faces(k), *v)).collect();
        let solver = Solver::new(mvs(&self.moves), PruningTable::of_entries(&keyed, self.depth as i32));
        ida_star(&self.start(), &solver, self.limit as i32).map(|l| codes(&l))
    }

    fn start(&self) -> FaceletCube {
        FaceletCube::from(faces(&self.from))
    }

    fn number(&self, cube: &FaceletCube) -> usize {
        let key = letters(&cube.state());
        self.entries.binary_search_by(|(k, _)| k.cmp(&key)).map_or(self.depth + 1, |i| self.entries[i].1 as usize)
    }

    /// No two neighbours share both kind and width.
    fn may_follow(made: &[u16], code: u16) -> bool {
        made.last().is_none_or(|last| kind_and_width(*last) != kind_and_width(code))
    }

    /// What the rules answer, for any table: depth-first search under rising limits, over the crate's moves.
    pub fn ruled(&self) -> Option<Vec<u16>> {
        (0..=self.limit).find_map(|left| self.pass(&self.start(), &mut Vec::new(), left))
    }

    fn pass(&self, cube: &FaceletCube, made: &mut Vec<u16>, left: usize) -> Option<Vec<u16>> {
        let number = self.number(cube);
        if number == 0 {
            return Some(made.clone());
        }
        if number > left {
            return None;
        }
        self.moves.iter().find_map(|code| {
            if !Self::may_follow(made, *code) {
                return None;
            }
            made.push(*code);
            let found = self.pass(&cube.apply_move(mv(*code)), made, left - 1);
            made.pop();
            found
        })
    }

    /// What demand 3 wants, by its words: of all allowed lists within the limit, by length and then in candidate order, the first that reaches a goal.
    pub fn foremost(&self) -> Option<Vec<u16>> {
        let mut lists = vec![(Vec::new(), self.start())];
        for length in 0..=self.limit {
            if let Some((list, _)) = lists.iter().find(|(_, cube)| self.number(cube) == 0) {
                return Some(list.clone());
            }
            if length < self.limit {
                lists = lists.iter().flat_map(|(list, cube)| self.longer(list, cube)).collect();
            }
        }
        None
    }

    /// A list with each candidate that may follow, in their order, and where it leads.
    fn longer(&self, list: &[u16], cube: &FaceletCube) -> Vec<(Vec<u16>, FaceletCube)> {
        let free = self.moves.iter().filter(|code| Self::may_follow(list, **code));
        free.map(|code| ([list, &[*code]].concat(), cube.apply_move(mv(*code)))).collect()
    }
}
