//! How long our second builder takes, by rule and kind of pair:
//! `cargo run --release --offline --example timing`.

use inputs::{chains, clocks, large_pair, long_way, many_rounds, small_pair, Pair, Random, RULES};
use second::build;
use std::time::{Duration, Instant};

fn main() {
    for rule in RULES {
        println!("rule {rule}");
        time_all(rule);
    }
}

fn time_all(rule: u64) {
    let mut random = Random::new(1);
    let mut small = || small_pair(&mut random, rule);
    time("small", &Vec::from_iter((0..20_000).map(|_| small())));
    for letters in [8, 4, 2, 1] {
        let mut large = || large_pair(&mut random, letters, rule);
        let pairs = Vec::from_iter((0..40).map(|_| large()));
        time(&format!("large, {letters} letters"), &pairs);
    }
    time("chains", &chains(rule));
    for (w, r, b) in [(3, 2, 4), (15, 14, 15), (16, 15, 1), (16, 15, 15)] {
        let pair = clocks(w, r, b, rule);
        time(&format!("clocks {w} {r} bound {b}"), &[pair]);
    }
    let ways = [false, true].map(|upward| long_way(15, upward, rule));
    time("long ways", &ways);
    for (pair, rounds) in many_rounds(rule) {
        time(&format!("found, {rounds} rounds"), &[pair]);
    }
}

/// Builds each pair and prints mean and longest time, and the most rounds.
fn time(name: &str, pairs: &[Pair]) {
    let mut buffer = [0; 4096];
    let (mut all, mut longest, mut rounds) = (Duration::ZERO, Duration::ZERO, 0);
    let mut accepted = 0;
    for pair in pairs {
        let begun = Instant::now();
        let built = build(
            &pair.writer,
            &pair.reader,
            pair.bound,
            pair.rule,
            &mut buffer,
        );
        let took = begun.elapsed();
        all += took;
        longest = longest.max(took);
        rounds = rounds.max(built.rounds);
        accepted += u64::from(built.number == 0);
    }
    let mean = all / pairs.len() as u32;
    println!(
        "{name}: {} pairs, {accepted} accepted, mean {mean:?}, longest {longest:?}, most rounds {rounds}",
        pairs.len()
    );
}
