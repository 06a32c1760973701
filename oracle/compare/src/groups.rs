//! A second reading of algorithms with groups, by docs/RULES.md. The text is cut into words and signs; what is wrong with the words and what is wrong
//! with the signs is looked for apart, and the least by place and number is the refusal. Where nothing is wrong a tree is made, which tells the
//! expansion, its length before it is made, and the effect on a cube.
use crate::crate_side::{ids, mv};
use crate::grammar;
use cubesim::prelude::{Cube, FaceletCube};

/// A refusal's number and its place in the text.
pub type Fault = (u8, usize);

/// What a text is made of: a word from one place to another, or a sign. Behind `)` stands how often the group is repeated.
#[derive(Clone, Copy)]
enum Piece {
    Word(usize, usize),
    Sign(usize, u8, usize),
}

pub fn is_sign(b: u8) -> bool {
    b"()[],:".contains(&b)
}

fn is_space(b: u8) -> bool {
    (9..=13).contains(&b) || b == 32
}

fn pieces(s: &[u8]) -> Vec<Piece> {
    let (mut all, mut i) = (Vec::new(), 0);
    while i < s.len() {
        if is_space(s[i]) {
            i += 1;
        } else if is_sign(s[i]) {
            let digit = s.get(i + 1).filter(|b| s[i] == b')' && (b'1'..=b'9').contains(b));
            all.push(Piece::Sign(i, s[i], digit.map_or(1, |b| (b - b'0') as usize)));
            i += 1 + digit.is_some() as usize;
        } else {
            let end = (i..s.len()).find(|j| is_space(s[*j]) || is_sign(s[*j])).unwrap_or(s.len());
            all.push(Piece::Word(i, end));
            i = end;
        }
    }
    all
}

/// The code of a word, or what is wrong with it.
fn word(n: usize, s: &[u8], from: usize, to: usize) -> Result<u16, Fault> {
    grammar::text(n, &s[from..to]).map(|codes| codes[0]).map_err(|(number, at)| (number, from + at))
}

/// What the signs alone do wrong, the first of it. `open` has the opening signs that wait for their ends, and `/` for a bracket that has its comma or
/// colon.
fn wrong_sign(s: &[u8], pieces: &[Piece]) -> Option<Fault> {
    let mut open = Vec::new();
    for piece in pieces {
        let Piece::Sign(at, sign, _) = *piece else { continue };
        match (sign, open.last()) {
            (b'(' | b'[', _) if open.len() == 8 => return Some((17, at)),
            (b'(' | b'[', _) => open.push(sign),
            (b',' | b':', Some(b'[')) => *open.last_mut().unwrap() = b'/',
            (b')', Some(b'(')) | (b']', Some(b'/')) => drop(open.pop()),
            _ => return Some((16, at)),
        }
    }
    (!open.is_empty()).then_some((16, s.len()))
}

/// A sequence: moves and groups.
pub struct Sequence(Vec<Item>);

enum Item {
    Move(u16),
    Repeated(Sequence, usize),
    Commutator(Sequence, Sequence),
    Conjugate(Sequence, Sequence),
}

/// The inverse of a list: its order reversed, each turn t becomes 4 - t.
fn inverted(list: &[u16]) -> Vec<u16> {
    list.iter().rev().map(|c| c / 4 * 4 + (4 - c % 4)).collect()
}

/// Where a permutation followed by another takes from, and what undoes one.
fn followed(a: &[u16], b: &[u16]) -> Vec<u16> {
    b.iter().map(|i| a[*i as usize]).collect()
}

fn undone(a: &[u16]) -> Vec<u16> {
    let mut back = vec![0; a.len()];
    a.iter().enumerate().for_each(|(i, from)| back[*from as usize] = i as u16);
    back
}

impl Sequence {
    /// Takes the pieces of a sequence off the front of those that are left; all of them are as they should be.
    fn taken(codes: &mut dyn FnMut(usize, usize) -> u16, left: &mut &[Piece]) -> Sequence {
        let mut items = Vec::new();
        while let Some((first, rest)) = left.split_first() {
            match *first {
                Piece::Word(from, to) => {
                    *left = rest;
                    items.push(Item::Move(codes(from, to)));
                }
                Piece::Sign(_, sign @ (b'(' | b'['), _) => {
                    *left = rest;
                    items.push(Self::group(codes, sign, left));
                }
                _ => break,
            }
        }
        Sequence(items)
    }

    /// What follows an opening sign, up to its end.
    fn group(codes: &mut dyn FnMut(usize, usize) -> u16, opening: u8, left: &mut &[Piece]) -> Item {
        let first = Self::taken(codes, left);
        let (middle, times) = Self::sign(left);
        if opening == b'(' {
            return Item::Repeated(first, times);
        }
        let second = Self::taken(codes, left);
        Self::sign(left);
        if middle == b',' { Item::Commutator(first, second) } else { Item::Conjugate(first, second) }
    }

    fn sign(left: &mut &[Piece]) -> (u8, usize) {
        let Some((Piece::Sign(_, sign, times), rest)) = left.split_first() else { unreachable!("a sign is missing") };
        *left = rest;
        (*sign, *times)
    }

    /// How many moves it expands to. No text that fits in memory comes near the bounds of a usize.
    pub fn length(&self) -> usize {
        let one = |item: &Item| match item {
            Item::Move(_) => 1,
            Item::Repeated(a, times) => a.length() * times,
            Item::Commutator(a, b) => 2 * (a.length() + b.length()),
            Item::Conjugate(a, b) => 2 * a.length() + b.length(),
        };
        self.0.iter().map(one).sum()
    }

    /// Every move, in order.
    pub fn expansion(&self) -> Vec<u16> {
        let one = |item: &Item| match item {
            Item::Move(code) => vec![*code],
            Item::Repeated(a, times) => a.expansion().repeat(*times),
            Item::Commutator(a, b) => {
                let (a, b) = (a.expansion(), b.expansion());
                [&a[..], &b, &inverted(&a), &inverted(&b)].concat()
            }
            Item::Conjugate(a, b) => {
                let (a, b) = (a.expansion(), b.expansion());
                [&a[..], &b, &inverted(&a)].concat()
            }
        };
        self.0.iter().flat_map(one).collect()
    }

    /// Where each sticker of a cube of size n comes from, by the crate's single moves and the meaning of groups alone: no list is expanded or inverted.
    pub fn effect(&self, n: usize) -> Vec<u16> {
        let home = ids(&FaceletCube::new(n as i32));
        self.0.iter().fold(home.clone(), |done, item| {
            let here = match item {
                Item::Move(code) => ids(&FaceletCube::new(n as i32).apply_move(mv(*code))),
                Item::Repeated(a, times) => {
                    let a = a.effect(n);
                    (0..*times).fold(home.clone(), |all, _| followed(&all, &a))
                }
                Item::Commutator(a, b) => {
                    let (a, b) = (a.effect(n), b.effect(n));
                    followed(&followed(&followed(&a, &b), &undone(&a)), &undone(&b))
                }
                Item::Conjugate(a, b) => {
                    let a = a.effect(n);
                    followed(&followed(&a, &b.effect(n)), &undone(&a))
                }
            };
            followed(&done, &here)
        })
    }
}

/// A text's tree, or its refusal: 1 before all else, then the first fault by place, at one place that of the lower number.
pub fn text(n: usize, s: &[u8]) -> Result<Sequence, Fault> {
    if !(1..=104).contains(&n) {
        return Err((1, 0));
    }
    let pieces = pieces(s);
    let words = pieces.iter().filter_map(|piece| match *piece {
        Piece::Word(from, to) => word(n, s, from, to).err(),
        _ => None,
    });
    if let Some(fault) = words.chain(wrong_sign(s, &pieces)).min_by_key(|(number, at)| (*at, *number)) {
        return Err(fault);
    }
    Ok(Sequence::taken(&mut |from, to| word(n, s, from, to).unwrap(), &mut &pieces[..]))
}

/// What a call answers and leaves: the refusal's number, the value, and all of the output.
pub type Answer = (u8, usize, Vec<u16>);

/// The same by the rules, for an output that is lent so.
pub fn answer(read: &Result<Sequence, Fault>, out: &[u16]) -> Answer {
    match read {
        Err((number, at)) => (*number, *at, out.to_vec()),
        Ok(sequence) if sequence.length() > out.len() => (6, 0, out.to_vec()),
        Ok(sequence) => {
            let list = sequence.expansion();
            (0, list.len(), [&list, &out[list.len()..]].concat())
        }
    }
}
