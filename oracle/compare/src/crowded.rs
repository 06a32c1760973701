//! Pruning tables whose cubes crowd an index of states.
//!
//! A builder that finds states by an index of slots is at its worst where many keys want the same slots. The keys here are made for an index
//! in which a key's slot lies in a run of 64 slots whose place the upper 22 bits of the key's hash tell, and in which a level that is too
//! much for it is done in passes over classes of keys, a key's class being the lower 10 bits. Any bytes are a cube, so any hash has cubes.
//! What has to come out is found by a plain breadth-first search over the crate's own permutations.
use crate::solving::{rooms, Asked};
use crate::Tally;
use compare::crate_side::{ids, mv};
use compare::rng::Rng;
use cubesim::prelude::{Cube, FaceletCube};
use std::collections::{BTreeMap, BTreeSet};

const FACTOR: u64 = 2_654_435_761;
const UPPER: u64 = 40_503;
const SMALL: u64 = 2_048;
const LARGE: u64 = 262_144;
const RUN: u64 = 64;
const CLASSES: u64 = 1_024;

/// The lines of the library's text that the numbers above and the functions below repeat: a key crowds no index but the one it was made for.
fn as_built() {
    let (table, index, climb) = (
        include_str!("../../../../crates/table/src/lib.rt"),
        include_str!("../../../../crates/key_index/src/lib.rt"),
        include_str!("../../../../crates/table_climb/src/lib.rt"),
    );
    for (text, line) in [
        (table, "u32::from(u16::from_be_bytes([s[j], s[j + 1]]))"),
        (table, "u32::from_be_bytes([s[j], s[j + 1], s[j + 2], s[j + 3]])"),
        (table, "65536 * (four(s, j) as usize) + (two(s, j + 4) as usize)"),
        (index, "h = mix(h, table::word(key, 6 * k));"),
        (index, "(h + x % 4294967296 + x / 4294967296 * 40503) % 4294967296 * 2654435761 / 65536 % 4294967296"),
        (index, "h / CLASSES * (slots - RUN) / 4194304"),
        (index, "const CLASSES: usize = 1024;"),
        (index, "const RUN: usize = 64;"),
        (climb, "const FEW: usize = 2048;"),
        (climb, "const MANY: usize = 262144;"),
    ] {
        assert!(text.contains(line), "the builder has changed, and these keys no longer crowd it: {line}");
    }
}

/// The hash of a key, six bytes at a time.
fn hash(key: &[u8]) -> u64 {
    key.chunks(6).fold(0, |h, six| {
        let word = six.iter().fold(0u64, |w, b| w * 256 + *b as u64);
        (h + word % (1 << 32) + (word >> 32) * UPPER) % (1 << 32) * FACTOR / 65_536 % (1 << 32)
    })
}

/// The first slot of a hash's run.
fn run(h: u64, slots: u64) -> u64 {
    h / CLASSES * (slots - RUN) / (1 << 22)
}

fn random_key(rng: &mut Rng, n: usize) -> Vec<u8> {
    (0..6 * n * n).map(|_| rng.below(256) as u8).collect()
}

/// What the last step of a hash has to start from, if anything gives that hash: the product's bits 16 to 47 are the hash, and the factor is odd.
fn before(h: u64) -> Option<u64> {
    let inverse = (0..6).fold(1u64, |x, _| x.wrapping_mul(2u64.wrapping_sub(FACTOR.wrapping_mul(x))));
    (0..65_536u64).map(|low| (h * 65_536 + low).wrapping_mul(inverse) % (1 << 48)).find(|s| *s < 1 << 32)
}

/// A random key whose last four bytes are chosen so that its hash ends as that.
fn key_with(rng: &mut Rng, n: usize, sum: u64) -> Vec<u8> {
    let mut key = random_key(rng, n);
    let last = key.len() - 6;
    let upper = 256 * key[last] as u64 + key[last + 1] as u64;
    let word = sum.wrapping_sub(hash(&key[..last])).wrapping_sub(upper * UPPER) % (1 << 32);
    key[last + 2..].copy_from_slice(&(word as u32).to_be_bytes());
    key
}

/// So many different keys of those hashes in turn, as far as they have keys.
fn keys(rng: &mut Rng, n: usize, hashes: &[u64], count: usize) -> Vec<Vec<u8>> {
    let some: Vec<(u64, u64)> = hashes.iter().filter_map(|h| before(*h).map(|sum| (*h, sum))).collect();
    let (mut seen, mut all) = (BTreeSet::new(), Vec::new());
    while !some.is_empty() && all.len() < count {
        let (h, sum) = some[all.len() % some.len()];
        let key = key_with(rng, n, sum);
        assert_eq!(hash(&key), h);
        if seen.insert(key.clone()) {
            all.push(key);
        }
    }
    all
}

/// For each place the place that its sticker comes from, after the crate's move.
fn sources(n: usize, code: u16) -> Vec<usize> {
    ids(&FaceletCube::new(n as i32).apply_move(mv(code))).into_iter().map(usize::from).collect()
}

fn turned(cube: &[u8], sources: &[usize]) -> Vec<u8> {
    sources.iter().map(|i| cube[*i]).collect()
}

/// The table, by breadth-first search.
fn reached(n: usize, starts: &[Vec<u8>], moves: &[u16], depth: usize) -> Vec<u8> {
    let turns: Vec<Vec<usize>> = moves.iter().map(|c| sources(n, *c)).collect();
    let mut found: BTreeMap<Vec<u8>, u8> = starts.iter().map(|s| (s.clone(), 0)).collect();
    let mut level: Vec<Vec<u8>> = found.keys().cloned().collect();
    for number in 1..=depth as u8 {
        let mut next = Vec::new();
        for (cube, turn) in level.iter().flat_map(|c| turns.iter().map(move |t| (c, t))) {
            let new = turned(cube, turn);
            if !found.contains_key(&new) {
                found.insert(new.clone(), number);
                next.push(new);
            }
        }
        level = next;
    }
    found.into_iter().flat_map(|(k, v)| k.into_iter().chain([v])).collect()
}

fn held(tally: &mut Tally, name: &str, n: usize, starts: &[Vec<u8>], moves: &[u16], depth: usize) {
    let want = reached(n, starts, moves, depth);
    let flat = starts.concat();
    rooms(tally, "pruning_table on crowded keys, a call each", &Asked { name, n, starts: &flat, moves, depth }, &want);
}

/// Up to so many hashes that share the run of a hash in an index of so many slots, and its class or any.
fn sharing(rng: &mut Rng, h: u64, slots: u64, one_class: bool, count: usize) -> Vec<u64> {
    let first = |r: u64| (r << 22).div_ceil(slots - RUN);
    let (from, to) = (first(run(h, slots)), first(run(h, slots) + 1));
    let mut all: Vec<u64> = if one_class { (from..to).map(|u| u * CLASSES + h % CLASSES).collect() } else { Vec::new() };
    if !one_class {
        all.extend((0..count).map(|_| (from + rng.below((to - from) as usize) as u64) * CLASSES + rng.below(CLASSES as usize) as u64));
    }
    while all.len() > count {
        let at = rng.below(all.len());
        all.swap_remove(at);
    }
    assert!(all.iter().all(|x| run(*x, slots) == run(h, slots) && (!one_class || x % CLASSES == h % CLASSES)));
    all
}

/// Keys of one hash, of one run, of runs that overlap, of the first and last runs.
fn runs(tally: &mut Tally, rng: &mut Rng) {
    for n in [1usize, 2, 3, 7] {
        let h = hash(&random_key(rng, n));
        for count in [63usize, 64, 65, 66, 128, 200, 1_000] {
            held(tally, "one hash", n, &keys(rng, n, &[h], count), &[], 0);
        }
        let few = rng.codes(n, 3);
        for (name, hashes, count) in [
            ("one run of a small index, one class", sharing(rng, h, SMALL, true, 300), 200),
            ("one run of a small index, all classes", sharing(rng, h, SMALL, false, 300), 200),
            ("one run of a large index, one class", sharing(rng, h, LARGE, true, 16), 300),
            ("one run of a large index, all classes", sharing(rng, h, LARGE, false, 400), if n < 7 { 2_000 } else { 300 }),
            ("the first run", sharing(rng, 0, LARGE, false, 200), 200),
            ("the last run", sharing(rng, (1 << 32) - 1, LARGE, false, 200), 200),
            ("the lowest and highest hashes", vec![0, 1, 1_023, 1_024, (1 << 32) - 1_025, (1 << 32) - 1_024, (1 << 32) - 1], 500),
        ] {
            let crowd = keys(rng, n, &hashes, count);
            assert_eq!(crowd.len(), count);
            for depth in 0..=2 {
                held(tally, name, n, &crowd, &few, depth);
            }
            // the same crowd, but only after a move, and after two
            for away in 1..=2 {
                let undo: Vec<Vec<usize>> = few[..away].iter().map(|code| sources(n, code / 4 * 4 + (4 - code % 4))).collect();
                let back: Vec<Vec<u8>> = crowd.iter().map(|key| undo.iter().fold(key.clone(), |k, s| turned(&k, s))).collect();
                held(tally, name, n, &back, &few[..away], away);
            }
        }
        // runs that start 0, 1, 2 .. slots later: each is full before all have their keys
        for slots in [SMALL, LARGE] {
            let later: Vec<u64> = (0..RUN).map(|i| h / 2 + ((i << 32) / (slots - RUN))).collect();
            held(tally, "runs that overlap", n, &keys(rng, n, &later, 600), &few, 1);
        }
    }
}

/// As many different keys as fill an index, or three quarters of it, and one more or less.
fn fillings(tally: &mut Tally, rng: &mut Rng) {
    for count in [767usize, 768, 769, 959, 960, 961, 1_023, 1_024, 1_025] {
        let all: Vec<Vec<u8>> = (0..count).map(|_| random_key(rng, 1)).collect();
        let few = rng.codes(1, 2);
        for depth in 0..=2 {
            held(tally, "as many as a small index has slots", 1, &all, &few, depth);
        }
    }
    // near their places in rising order, and some twice
    for count in [196_607usize, 196_608, 196_609, 262_143, 262_144, 262_145, 300_000] {
        let mut all: Vec<Vec<u8>> = (0..count as u64).map(|i| ((i * 900_000_000) + rng.below(900_000_000) as u64).to_be_bytes()[2..].to_vec()).collect();
        for i in 0..count {
            let j = (i + rng.below(50)).min(count - 1);
            all.swap(i, j);
        }
        all.extend_from_within(..100);
        held(tally, "as many as a large index has slots", 1, &all, &[], 0);
    }
    // x2 leads each start to a state of its own and back
    for count in [98_303usize, 98_304, 98_305, 131_072, 150_000] {
        let all: Vec<Vec<u8>> = (0..count).map(|i| [i >> 16, i >> 8, i, 128 + (i >> 16), 7, i].map(|b| b as u8).to_vec()).collect();
        held(tally, "as many as a large index has slots, a level on", 1, &all, &[50, 50], 1);
        held(tally, "as many as a large index has slots, a level on", 1, &all, &[50], 3);
    }
    let all: Vec<Vec<u8>> = (0..1_000).map(|_| random_key(rng, 1)).collect();
    let many = rng.codes(1, 255);
    held(tally, "1,000 starts and 255 candidates", 1, &all, &many, 1);
}

/// Starting cubes in rising, falling and any order: with long common beginnings, and with bytes from both ends of their range.
fn orders(tally: &mut Tally, rng: &mut Rng) {
    let ends = [0u8, 127, 128, 255];
    let mut sets: Vec<(usize, Vec<Vec<u8>>)> = vec![(1, (0..4_096usize).map(|i| (0..6).map(|k| ends[i >> (10 - 2 * k) & 3]).collect()).collect())];
    for (n, values) in [(1usize, 255u8), (2, 100), (3, 40), (7, 6)] {
        let places = 6 * n * n;
        sets.push((n, (0..places).rev().flat_map(|at| (1..=values).map(move |v| (0..places).map(|i| if i == at { v } else { 0 }).collect())).collect()));
    }
    for (n, rising) in sets {
        assert!(rising.windows(2).all(|pair| pair[0] < pair[1]));
        let falling: Vec<Vec<u8>> = rising.iter().rev().cloned().collect();
        let mut any = rising.clone();
        for i in 0..any.len() {
            let j = i + rng.below(any.len() - i);
            any.swap(i, j);
        }
        for (name, starts) in [("rising starts", &rising), ("falling starts", &falling), ("starts in any order", &any)] {
            held(tally, name, n, starts, &[1], 0);
            held(tally, name, n, starts, &[1], 1);
        }
    }
}

/// Crowds of any kind among keys of none, some of them twice, a few levels on.
fn mixed(tally: &mut Tally, rng: &mut Rng) {
    for _ in 0..200 {
        let n = 1 + rng.below(3);
        let mut starts = Vec::new();
        for _ in 0..1 + rng.below(3) {
            let h = hash(&random_key(rng, n));
            let slots = *rng.of(&[SMALL, LARGE]);
            let one_class = rng.below(2) == 0;
            let of = 1 + rng.below(20);
            let hashes = sharing(rng, h, slots, one_class, of);
            let count = rng.below(150);
            starts.extend(keys(rng, n, &hashes, count));
        }
        for _ in 0..rng.below(200) {
            starts.push(random_key(rng, n));
        }
        for i in 0..starts.len() {
            let j = i + rng.below(starts.len() - i);
            starts.swap(i, j);
            if rng.below(20) == 0 {
                starts.push(starts[j].clone());
            }
        }
        let count = rng.below(4);
        let moves = rng.codes(n, count);
        let depth = rng.below(3);
        held(tally, "crowds among others", n, &starts, &moves, depth);
    }
}

pub fn all(tally: &mut Tally, rng: &mut Rng) {
    as_built();
    runs(tally, rng);
    fillings(tally, rng);
    orders(tally, rng);
    mixed(tally, rng);
}
