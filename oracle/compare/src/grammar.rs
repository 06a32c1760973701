//! A second reading of the grammar in docs/RULES.md, and the domain on which the crate's reader agrees with it. All tokens are written out once;
//! a text is looked up among them, and what can still become one of them says how far it is right.
use std::collections::{HashMap, HashSet};
use std::sync::OnceLock;

/// Every token with its code, whatever the size, and all that a token begins with.
struct Tokens {
    codes: HashMap<Vec<u8>, u16>,
    fronts: HashSet<Vec<u8>>,
}

fn tokens() -> &'static Tokens {
    static ALL: OnceLock<Tokens> = OnceLock::new();
    ALL.get_or_init(|| {
        let mut all = Tokens { codes: HashMap::new(), fronts: HashSet::new() };
        for (turn, suffix) in [(1, ""), (2, "2"), (3, "'")] {
            for (place, letter) in "ULFRBDxyz".chars().enumerate() {
                let place = place as u16;
                all.put(format!("{letter}{suffix}"), if place < 6 { place } else { place + 6 } * 4 + turn);
                if place < 6 {
                    all.put(format!("{letter}w{suffix}"), 2 * 64 + (place + 6) * 4 + turn);
                    (1..1000).for_each(|width| all.put(format!("{width}{letter}w{suffix}"), width * 64 + (place + 6) * 4 + turn));
                }
            }
        }
        all
    })
}

impl Tokens {
    fn put(&mut self, token: String, code: u16) {
        (0..=token.len()).for_each(|end| drop(self.fronts.insert(token.as_bytes()[..end].to_vec())));
        self.codes.insert(token.into_bytes(), code);
    }
}

/// A token's code, or the number of its refusal and its place in the token.
fn token(n: usize, t: &[u8]) -> Result<u16, (u8, usize)> {
    if let Some(code) = tokens().codes.get(t) {
        let width = (code / 64) as usize;
        return if width == 0 || (1 < width && width < n) { Ok(*code) } else { Err((5, 0)) };
    }
    let digits = t.iter().take_while(|b| b.is_ascii_digit()).count();
    if digits > 3 || t[0] == b'0' {
        return Err((13, 0));
    }
    let right = (0..=t.len()).rev().find(|end| tokens().fronts.contains(&t[..*end])).unwrap();
    Err((if right == digits { 12 } else { 14 }, right))
}

/// A text's codes, or the first bad token's refusal: its number and its place.
pub fn text(n: usize, s: &[u8]) -> Result<Vec<u16>, (u8, usize)> {
    let mut out = Vec::new();
    let mut i = 0;
    let space = |b: u8| (9..=13).contains(&b) || b == 32;
    while i < s.len() {
        if space(s[i]) {
            i += 1;
            continue;
        }
        let end = (i..s.len()).find(|j| space(s[*j])).unwrap_or(s.len());
        out.push(token(n, &s[i..end]).map_err(|(number, at)| (number, i + at))?);
        i = end;
    }
    Ok(out)
}

/// Whether the crate's rule for widths and turns agrees with the grammar: no digit but one of 3 to 9 in front.
pub fn in_domain(s: &[u8]) -> bool {
    s.split(|b| b.is_ascii_whitespace() || *b == 11).all(|t| {
        let digits = t.iter().take_while(|b| b.is_ascii_digit()).count();
        digits == 0 || (digits == 1 && (b'3'..=b'9').contains(&t[0]))
    })
}
