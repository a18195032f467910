//! The reason of every move at every configuration, on both builders.
//!
//! A program without the test harness, whose threads cost too much here: as
//! soon as there is a second thread an emulator has to keep the order of every
//! load and store, and these millions of calls take over three times as long.

mod compare;

use compare::{seeded, Compared};
use inputs::*;

fn main() {
    for rule in RULES {
        every_reason(rule);
    }
}

/// 20,000 pairs, over what was built and over bytes that nobody built.
fn every_reason(rule: u64) {
    let mut compared = Compared::new();
    let mut random = seeded(20261116 + rule);
    for _ in 0..20_000 {
        let pair = pair(&mut random, rule);
        let kept = if random.chance(50) {
            compared.build(&pair, &patterned(pair.count())).1
        } else {
            kept_set(&mut random, pair.count())
        };
        compared.every_move_everywhere(&pair, &kept);
    }
    compared.print("every move everywhere");
    for reason in 0..=6 {
        let met = compared.reasons(rule, reason);
        assert!(met > 60_000, "reason {reason} under rule {rule}: {met}");
    }
    for side in 1..=2 {
        assert!(compared.met_under(rule, "why", 14, side) > 60_000);
    }
}

/// Mostly a pair with many moves and few configurations, at times a small one
/// at any bound, which has up to 256.
fn pair(random: &mut Random, rule: u64) -> Pair {
    if random.chance(99) {
        return many_moves_pair(random, rule);
    }
    let bound = random.below(16);
    Pair {
        bound,
        ..small_pair(random, rule)
    }
}
