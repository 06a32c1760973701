//! Holds the proved library against the crate, on the rules' domain, and shows each known difference outside it.
//!
//!   compare [--large] [SEED]     ends with status 1 at the first difference, with the smallest input found
//!                                --large: also the table of 621,649 entries
mod algorithms;
mod crowded;
mod differences;
mod lists;
mod moving;
mod notation;
mod solving;

use compare::rng::Rng;
use std::collections::BTreeMap;
use std::time::Instant;

/// How many answers were compared, by kind; and the end of the run at the first that differs.
pub struct Tally(BTreeMap<&'static str, u64>);

impl Tally {
    pub fn same<T: PartialEq + std::fmt::Debug>(&mut self, kind: &'static str, judge: &T, ours: &T, input: impl Fn() -> String) {
        *self.0.entry(kind).or_insert(0) += 1;
        if judge != ours {
            println!("DIFFERENT {kind}: {}\n  the judge: {judge:?}\n  here:      {ours:?}", input());
            std::process::exit(1);
        }
    }
}

fn main() {
    let mut words: Vec<String> = std::env::args().skip(1).collect();
    let large = words.first().is_some_and(|w| w == "--large");
    words.drain(..large as usize);
    let seed = words.first().map_or(20261115, |s| s.parse().expect("a seed is a number"));
    let start = Instant::now();
    let mut rng = Rng(seed);
    let mut tally = Tally(BTreeMap::new());
    lists::all_moves(&mut tally);
    lists::sticker_index(&mut tally);
    lists::simplify(&mut tally, &mut rng);
    notation::tokens(&mut tally);
    notation::texts(&mut tally, &mut rng);
    moving::every_move(&mut tally);
    moving::random_lists(&mut tally, &mut rng);
    moving::masks(&mut tally, &mut rng);
    moving::solved(&mut tally, &mut rng);
    solving::tables(&mut tally, &mut rng);
    let otherwise = solving::searches(&mut tally, &mut rng);
    assert!(otherwise > 0, "two widths of a kind, and the crate never answers otherwise");
    solving::chosen_tables(&mut tally, &mut rng);
    crowded::all(&mut tally, &mut rng);
    solving::lookups(&mut tally, &mut rng);
    let told = algorithms::all(&mut tally, &mut rng);
    if large {
        solving::largest_table(&mut tally);
    }
    let shown = differences::all();
    for (kind, count) in &tally.0 {
        println!("{count:>9}  {kind}");
    }
    told.print();
    println!("{otherwise:>9}  searches with two widths of a kind which the crate answers otherwise");
    println!("{:>9}  answers compared, seed {seed}, none different; {shown} known differences shown; {} s", tally.0.values().sum::<u64>(), start.elapsed().as_secs());
}
