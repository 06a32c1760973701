//! parse_scramble: equal to the crate's on grammatical text whose widths are absent or a single digit 3 to 9; elsewhere the refusals are held
//! against a second reading of the grammar.
use compare::crate_side::codes;
use compare::grammar::{self, in_domain};
use compare::inputs;
use crate::Tally;
use compare::rng::Rng;
use cubesim_proved::Refusal;

/// The second reading, in the library's words.
fn text(n: usize, s: &[u8]) -> Result<Vec<u16>, Refusal> {
    grammar::text(n, s).map_err(|(number, at)| match number {
        12 => Refusal::Letter(at),
        13 => Refusal::Digits(at),
        14 => Refusal::Ending(at),
        _ => Refusal::Width(Some(at)),
    })
}

fn check(tally: &mut Tally, n: usize, s: &[u8]) {
    let mut out = vec![0u16; s.len()];
    let ours = cubesim_proved::parse_scramble(n, s, &mut out).map(|count| out[..count].to_vec());
    tally.same("parse_scramble, read a second time, a text each", &text(n, s), &ours, || format!("size {n}, {:?}", String::from_utf8_lossy(s)));
    if let (Ok(list), true) = (&ours, in_domain(s)) {
        let crates = codes(&cubesim::parse_scramble(String::from_utf8(s.to_vec()).unwrap()));
        tally.same("parse_scramble, a text of the domain each", &crates, list, || format!("size {n}, {:?}", String::from_utf8_lossy(s)));
    }
}

/// Every token of up to four bytes over an alphabet of what tokens are made of, and of up to six over a smaller one: a fault can stand behind three
/// digits, a letter, `w` and a suffix.
pub fn tokens(tally: &mut Tally) {
    words(tally, b"URFLDBxyzw23'190Q", 0..=4, &[2, 10, 104]);
    words(tally, b"Uxw2'01", 5..=6, &[13]);
}

fn words(tally: &mut Tally, alphabet: &[u8], lengths: std::ops::RangeInclusive<u32>, sizes: &[usize]) {
    let base = alphabet.len();
    for length in lengths {
        for mut number in 0..base.pow(length) {
            let mut token = Vec::new();
            for _ in 0..length {
                token.push(alphabet[number % base]);
                number /= base;
            }
            for n in sizes {
                check(tally, *n, &token);
            }
        }
    }
}

/// Longer texts: tokens of the grammar, now and then damaged, with any of the spaces between them.
pub fn texts(tally: &mut Tally, rng: &mut Rng) {
    for _ in 0..200_000 {
        let n = 1 + rng.below(104);
        let s = inputs::text(rng);
        check(tally, n, &s);
    }
}
