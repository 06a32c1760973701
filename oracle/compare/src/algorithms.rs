//! parse_algorithm: the crate has no groups, so the judge is a second reading by the rules (`groups.rs`); parse_scramble where no sign stands; and the
//! crate's moves for what an expansion does to a cube.
use crate::Tally;
use compare::crate_side::{ids, letters, mvs};
use compare::groups::{self, Answer, Fault, Sequence};
use compare::rng::Rng;
use compare::{grammar, inputs};
use cubesim::prelude::{Cube, FaceletCube};
use std::collections::BTreeMap;
use std::time::Instant;

extern "C" {
    fn cubesim_parse_algorithm(n: u64, text: *const u8, text_len: usize, out: *mut u16, out_len: usize) -> u64;
    fn cubesim_parse_scramble(n: u64, text: *const u8, text_len: usize, out: *mut u16, out_len: usize) -> u64;
}

type Reader = unsafe extern "C" fn(u64, *const u8, usize, *mut u16, usize) -> u64;

const CHOSEN: &str = "parse_algorithm, chosen texts, by their list, a call each";
const SHORT: &str = "parse_algorithm, every short text, read a second time, a call each";
const BYTES: &str = "parse_algorithm, every byte at every place of chosen texts, read a second time, a call each";
const DRAWN: &str = "parse_algorithm, drawn groups, read a second time, a call each";
const SPOILED: &str = "parse_algorithm, spoiled groups, read a second time, a call each";
const WRAPPED: &str = "parse_algorithm of the Rust package, read a second time, a call each";
const PLAIN: &str = "parse_algorithm, text without signs, by parse_scramble, a call each";
const EFFECT: &str = "parse_algorithm, the effect on ids, by the crate's moves, a text each";
const LAWS: &str = "parse_algorithm, groups that undo each other or say the same, a text each";
const PARTS: [&str; 9] = [CHOSEN, SHORT, BYTES, DRAWN, SPOILED, WRAPPED, PLAIN, EFFECT, LAWS];

/// The longest expansion that is asked for with room, but for the chosen texts.
const LONGEST: usize = 4_000;

/// How often each number was answered, by part.
pub struct Told(BTreeMap<(&'static str, u8), u64>);

impl Told {
    /// A part has answered each of these numbers.
    fn each(&self, kind: &'static str, numbers: &[u8]) {
        numbers.iter().for_each(|number| assert!(self.0.contains_key(&(kind, *number)), "{kind}: never answered {number}"));
    }

    /// A line for each number, over all parts.
    pub fn print(&self) {
        let mut all = BTreeMap::new();
        self.0.iter().for_each(|((_, number), count)| *all.entry(*number).or_insert(0) += count);
        for (number, count) in all {
            let what = if number == 0 { "accepted".to_string() } else { format!("refused {number}") };
            println!("{count:>9}  parse_algorithm's answers: {what}");
        }
    }
}

/// What is lent as output: numbers that are no move's, each another than its neighbours.
fn lent(room: usize) -> Vec<u16> {
    (0..room).map(|i| 0xc000 + (i % 0x4000) as u16).collect()
}

fn call(reader: Reader, n: usize, s: &[u8], room: usize) -> Answer {
    let mut out = lent(room);
    let packed = unsafe { reader(n as u64, s.as_ptr(), s.len(), out.as_mut_ptr(), room) };
    ((packed & 255) as u8, (packed >> 8) as usize, out)
}

fn shown(n: usize, s: &[u8], room: usize) -> String {
    format!("size {n}, {:?}, room {room}", String::from_utf8_lossy(s))
}

/// One call with so much room, held against a reading, and against parse_scramble where the text has no sign.
fn check(tally: &mut Tally, told: &mut Told, kind: &'static str, n: usize, s: &[u8], read: &Result<Sequence, Fault>, room: usize) {
    let (want, ours) = (groups::answer(read, &lent(room)), call(cubesim_parse_algorithm, n, s, room));
    *told.0.entry((kind, want.0)).or_insert(0) += 1;
    tally.same(kind, &want, &ours, || shown(n, s, room));
    if !s.iter().any(|b| groups::is_sign(*b)) {
        tally.same(PLAIN, &call(cubesim_parse_scramble, n, s, room), &ours, || shown(n, s, room));
    }
}

/// A text with room to spare; if it is accepted also with room that just fits and one slot too few.
fn check_rooms(tally: &mut Tally, told: &mut Told, kind: &'static str, n: usize, s: &[u8]) {
    let read = groups::text(n, s);
    let length = read.as_ref().map_or(0, Sequence::length);
    if length > LONGEST {
        [0, 1, LONGEST].iter().for_each(|room| check(tally, told, kind, n, s, &read, *room));
        return;
    }
    check(tally, told, kind, n, s, &read, length + 2);
    if read.is_ok() {
        check(tally, told, kind, n, s, &read, length);
    }
    if length > 0 {
        check(tally, told, kind, n, s, &read, length - 1);
    }
}

/// Texts with what they are by the rules: the same moves in plain notation, or a refusal and its place.
const TEXTS: &[(usize, &str, Result<&str, Fault>)] = &[
    // the three groups, and groups in groups
    (3, "(R U)3", Ok("R U R U R U")),
    (3, "(R U)", Ok("R U")),
    (3, "[R, U]", Ok("R U R' U'")),
    (3, "[R: U]", Ok("R U R'")),
    (4, "[R2 3Uw', x U]", Ok("R2 3Uw' x U 3Uw R2 U' x'")),
    (3, "[R U: (R' F)2] [F: [R, U]]", Ok("R U R' F R' F U' R' F R U R' U' F'")),
    (3, "[[R: U], D2]", Ok("R U R' D2 R U' R' D2")),
    (3, "[(R U)2: F]", Ok("R U R U F U' R' U' R'")),
    // nothing in a group, and nothing at all
    (3, "", Ok("")),
    (3, "()", Ok("")),
    (3, "()9", Ok("")),
    (3, "[,]", Ok("")),
    (3, "[:]", Ok("")),
    (3, "[R,]", Ok("R R'")),
    (3, "[,R]", Ok("R R'")),
    (3, "[R:]", Ok("R R'")),
    (3, "[:R]", Ok("R")),
    (3, "(((((((()9)9)9)9)9)9)9)9", Ok("")),
    // signs end a token, and spaces around them are free
    (3, "U(R)F", Ok("U R F")),
    (3, "U2[R',F]D", Ok("U2 R' F R F' D")),
    (3, "\t( \n R\x0b)2\x0c[\rR\r,\tU ] ", Ok("R R R U R' U'")),
    // a digit right after `)` is the repeat, the next byte begins a token
    (3, "(U)2R", Ok("U U R")),
    (3, "(U)2 R", Ok("U U R")),
    (3, "(U)2(R)2", Ok("U U R R")),
    (5, "(U)23Rw", Ok("U U 3Rw")),
    (5, "(U) 3Rw", Ok("U 3Rw")),
    (5, "(U)3Rw", Ok("U U U Rw")),
    (3, "(R)12", Err((12, 5))),
    (3, "(R) 2", Err((12, 5))),
    (3, "(R)0", Err((13, 3))),
    (3, "(R)'", Err((12, 3))),
    (3, "[R, U]2", Err((12, 7))),
    // a sign out of place
    (3, "[R]", Err((16, 2))),
    (3, "[R,U,F]", Err((16, 4))),
    (3, "[R:U:F]", Err((16, 4))),
    (3, "[R,U:F]", Err((16, 4))),
    (3, "(R]", Err((16, 2))),
    (3, "[R,U)", Err((16, 4))),
    (3, "(R,U)", Err((16, 2))),
    (3, "(R:U)", Err((16, 2))),
    (3, "U)", Err((16, 1))),
    (3, "U]", Err((16, 1))),
    (3, ",", Err((16, 0))),
    (3, ":", Err((16, 0))),
    (3, ")", Err((16, 0))),
    (3, "]", Err((16, 0))),
    // a sign missing
    (3, "(R", Err((16, 2))),
    (3, "(R ", Err((16, 3))),
    (3, "(", Err((16, 1))),
    (3, "[R", Err((16, 2))),
    (3, "[R,U \t", Err((16, 6))),
    (3, "((R)", Err((16, 4))),
    // a token's own faults, with places in the text
    (3, "[R, 2R]", Err((14, 6))),
    (3, "2R)", Err((14, 2))),
    (3, "(2R", Err((14, 3))),
    (3, "(2)", Err((12, 2))),
    (3, "2]", Err((12, 1))),
    (3, "(02Uw)", Err((13, 1))),
    (104, "(1000Uw)", Err((13, 1))),
    (3, "(R Q)", Err((12, 3))),
    (3, "(R2')", Err((14, 3))),
    (4, "(R 4Uw)", Err((5, 3))),
    (4, "4Uw3", Err((14, 3))),
    (4, "(4Uw3)", Err((14, 4))),
    (2, "[Uw,", Err((5, 1))),
    // several: the first by place
    (3, "(R] Q", Err((16, 2))),
    (3, "(Q]", Err((12, 1))),
    (3, "[R 3Uw, ]]", Err((5, 3))),
    (3, "(R 0", Err((13, 3))),
    // levels
    (3, "((((((((U))))))))", Ok("U")),
    (3, "[[[[[[[[R:U]:]:]:]:]:]:]:]", Err((6, 0))),
    (3, "(((((((((", Err((17, 8))),
    (3, "(((((((((U)))))))))", Err((17, 8))),
    (3, "[[[[[[[[[", Err((17, 8))),
    (3, "((((((((2R(", Err((14, 10))),
    (3, "((((((((U)(", Err((16, 11))),
    (3, "((((((((U)((", Err((17, 11))),
    (3, "((((((((U,(", Err((16, 9))),
    (3, "((((((((U)9)9)9)9)9)9)9)9", Err((6, 0))),
    // sizes
    (0, "(", Err((1, 0))),
    (105, "(((((((((", Err((1, 0))),
    (usize::MAX, "Q", Err((1, 0))),
    (1, "[R, (U)2]", Ok("R U U R' U' U'")),
    (1, "(Uw)", Err((5, 1))),
    (104, "(103Uw)2", Ok("103Uw 103Uw")),
    (104, "[104Uw:]", Err((5, 1))),
];

/// The chosen texts. The second reading must answer them so too.
fn chosen(tally: &mut Tally, told: &mut Told) {
    const ROOM: usize = 40;
    for (n, s, want) in TEXTS {
        let want = match want {
            Ok(plain) => {
                let list = grammar::text(*n, plain.as_bytes()).unwrap();
                (0, list.len(), [&list, &lent(ROOM)[list.len()..]].concat())
            }
            Err((number, at)) => (*number, *at, lent(ROOM)),
        };
        let s = s.as_bytes();
        assert_eq!(groups::answer(&groups::text(*n, s), &lent(ROOM)), want, "the second reading, size {n}, {:?}", String::from_utf8_lossy(s));
        *told.0.entry((CHOSEN, want.0)).or_insert(0) += 1;
        tally.same(CHOSEN, &want, &call(cubesim_parse_algorithm, *n, s, ROOM), || shown(*n, s, ROOM));
        check_rooms(tally, told, CHOSEN, *n, s);
    }
    longest(tally);
    empty_at_once(tally);
}

/// 43,046,721 moves of 26 bytes: with as many slots, and with one less. What is not U is told by its place, not printed.
fn longest(tally: &mut Tally) {
    let (s, length) = (b"((((((((U)9)9)9)9)9)9)9)9", 9usize.pow(8));
    for (room, want) in [(length, (0, length, None)), (length - 1, (6, 0, None)), (length + 1, (0, length, None))] {
        let (number, value, out) = call(cubesim_parse_algorithm, 3, s, room);
        let kept = |i: usize| 0xc000 + (i % 0x4000) as u16;
        let wrong = out.iter().enumerate().position(|(i, c)| *c != if number == 0 && i < length { 1 } else { kept(i) });
        tally.same(CHOSEN, &want, &(number, value, wrong), || shown(3, s, room));
    }
}

/// Nothing, 43,046,721 times over, a thousand calls: a reader that goes round as often would take minutes.
fn empty_at_once(tally: &mut Tally) {
    let (start, s) = (Instant::now(), b"(((((((()9)9)9)9)9)9)9)9");
    for _ in 0..1_000 {
        tally.same(CHOSEN, &(0, 0, vec![]), &call(cubesim_parse_algorithm, 3, s, 0), || shown(3, s, 0));
    }
    assert!(start.elapsed().as_secs() < 10, "groups of nothing are gone round");
}

/// Every text of up to six bytes over what algorithms are made of, at two sizes, and of seven and eight over fewer bytes.
fn short(tally: &mut Tally, told: &mut Told) {
    every(tally, told, b"UR2()[],:'9w ", 0..=6, &[3, 5]);
    every(tally, told, b"U()[],:2", 7..=7, &[3]);
    every(tally, told, b"U()[],:", 8..=8, &[3]);
}

fn every(tally: &mut Tally, told: &mut Told, alphabet: &[u8], lengths: std::ops::RangeInclusive<u32>, sizes: &[usize]) {
    let base = alphabet.len();
    for length in lengths {
        let mut s = vec![0; length as usize];
        for number in 0..base.pow(length) {
            let mut rest = number;
            for byte in &mut s {
                *byte = alphabet[rest % base];
                rest /= base;
            }
            sizes.iter().for_each(|n| check_rooms(tally, told, SHORT, *n, &s));
        }
    }
}

/// Every byte in place of each byte of some texts, and before it.
fn bytes(tally: &mut Tally, told: &mut Told) {
    for s in [&b"[R, U2]"[..], b"(R 3Uw')2 F", b"[x: (U)9 ]R", b"((U)2[y',D]: B)3", b"((((((((L))))))))"] {
        for (at, byte) in (0..s.len()).flat_map(|at| (0..=255u8).map(move |byte| (at, byte))) {
            let changed = [&s[..at], &[byte], &s[at + 1..]].concat();
            let grown = [&s[..at], &[byte], &s[at..]].concat();
            [changed, grown].iter().for_each(|text| check_rooms(tally, told, BYTES, 4, text));
        }
    }
}

/// A size, mostly a small one, and an algorithm of it, up to nine levels deep.
fn drawn(rng: &mut Rng) -> (usize, Vec<u8>) {
    let n = if rng.below(4) == 0 { 1 + rng.below(104) } else { 1 + rng.below(6) };
    let levels = rng.below(10);
    (n, inputs::algorithm(rng, n, levels))
}

/// Drawn algorithms, with the rooms of `check_rooms`, none and some; through the Rust package too.
fn random(tally: &mut Tally, told: &mut Told, rng: &mut Rng) {
    for round in 0..400_000 {
        let (n, mut s) = drawn(rng);
        let kind = if round % 2 == 0 { DRAWN } else { SPOILED };
        if kind == SPOILED {
            s = inputs::spoiled(rng, &s);
        }
        check_rooms(tally, told, kind, n, &s);
        let read = groups::text(n, &s);
        for room in [0, rng.below(40)] {
            check(tally, told, kind, n, &s, &read, room);
        }
        let room = rng.below(40);
        let (mut out, want) = (lent(room), groups::answer(&read, &lent(room)));
        let ours = match cubesim_proved::parse_algorithm(n, &s, &mut out) {
            Ok(count) => (0, count, out),
            Err(refusal) => (refusal.number(), refusal.place().unwrap_or(0), out),
        };
        tally.same(WRAPPED, &want, &ours, || shown(n, &s, room));
    }
}

/// Longer texts without a sign, good and bad, in any room.
fn plain(tally: &mut Tally, rng: &mut Rng) {
    for _ in 0..100_000 {
        let (n, s) = (rng.below(106), inputs::text(rng));
        if s.iter().any(|b| groups::is_sign(*b)) {
            continue;
        }
        let count = grammar::text(n, &s).map_or(0, |list| list.len());
        for room in [0, count.saturating_sub(1), count, count + 3] {
            tally.same(PLAIN, &call(cubesim_parse_scramble, n, &s, room), &call(cubesim_parse_algorithm, n, &s, room), || shown(n, &s, room));
        }
    }
}

/// What the library reads in a text, with room enough.
fn read(n: usize, s: &[u8], room: usize) -> Vec<u16> {
    let mut out = vec![0u16; room];
    let count = cubesim_proved::parse_algorithm(n, s, &mut out).unwrap();
    out[..count].to_vec()
}

/// An accepted text's expansion on ids does what its groups say: the library's moves on one side, on the other the crate's single moves, followed by each
/// other and undone as permutations.
fn effects(tally: &mut Tally, rng: &mut Rng) {
    for _ in 0..4_000 {
        let (n, levels) = (1 + rng.below(5), rng.below(9));
        let s = inputs::algorithm(rng, n, levels);
        let Ok(sequence) = groups::text(n, &s) else { panic!("refused: {}", shown(n, &s, 0)) };
        if sequence.length() > LONGEST {
            continue;
        }
        let (mut here, mut work) = (ids(&FaceletCube::new(n as i32)), vec![1u16; 6 * n * n]);
        cubesim_proved::apply_moves_to_ids(n, &mut here, &mut work, &read(n, &s, sequence.length())).unwrap();
        tally.same(EFFECT, &sequence.effect(n), &here, || shown(n, &s, sequence.length()));
    }
}

/// `[A, B] [B, A]` and `[A: [B, C]] [A: [C, B]]` bring any cube back, and `(A)k` is A written k times; without a second reading.
fn laws(tally: &mut Tally, rng: &mut Rng) {
    for _ in 0..4_000 {
        let n = 1 + rng.below(5);
        let [a, b, c]: [String; 3] = std::array::from_fn(|_| {
            let levels = rng.below(3);
            String::from_utf8(inputs::algorithm(rng, n, levels)).unwrap()
        });
        let scramble = rng.codes(n, 5);
        let cube = letters(&FaceletCube::new(n as i32).apply_moves(&mvs(&scramble)).state());
        for text in [format!("[{a}, {b}] [{b}, {a}]"), format!("[{a}: [{b}, {c}]] [{a}: [{c}, {b}]]")] {
            let (mut turned, mut work) = (cube.clone(), vec![1u8; 6 * n * n]);
            cubesim_proved::apply_moves(n, &mut turned, &mut work, &read(n, text.as_bytes(), 1 << 16)).unwrap();
            tally.same(LAWS, &cube, &turned, || shown(n, text.as_bytes(), 1 << 16));
        }
        let times = 1 + rng.below(9);
        let (short, long) = (format!("({a}){times}"), vec![a; times].join(" "));
        tally.same(LAWS, &read(n, long.as_bytes(), 1 << 16), &read(n, short.as_bytes(), 1 << 16), || shown(n, short.as_bytes(), 1 << 16));
    }
}

/// All parts; each has compared something, and met what it is there for.
pub fn all(tally: &mut Tally, rng: &mut Rng) -> Told {
    let mut told = Told(BTreeMap::new());
    chosen(tally, &mut told);
    short(tally, &mut told);
    bytes(tally, &mut told);
    random(tally, &mut told, rng);
    plain(tally, rng);
    effects(tally, rng);
    laws(tally, rng);
    PARTS.iter().for_each(|kind| assert!(tally.0.contains_key(kind), "{kind}: nothing compared"));
    told.each(CHOSEN, &[0, 1, 5, 6, 12, 13, 14, 16, 17]);
    told.each(SHORT, &[0, 5, 6, 12, 13, 14, 16]);
    told.each(BYTES, &[0, 5, 6, 12, 13, 14, 16, 17]);
    told.each(DRAWN, &[0, 6, 17]);
    told.each(SPOILED, &[0, 5, 6, 12, 13, 14, 16, 17]);
    told
}
