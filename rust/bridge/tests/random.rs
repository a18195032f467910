//! Random pairs, small and large, on both builders and under both rules.

mod compare;

use compare::{seeded, Compared};
use inputs::*;

/// Build, and ask at every configuration; ask and why over bytes that nobody
/// built, at times of another length.
#[test]
fn small_pairs() {
    let mut compared = Compared::new();
    for rule in RULES {
        let mut random = seeded(20261108 + rule);
        for _ in 0..30_000 {
            let pair = small_pair(&mut random, rule);
            let before = patterned(pair.count() + random.below(4) as usize);
            let (_, kept) = compared.build(&pair, &before);
            compared.ask_everywhere(&pair, &kept);
            let kept = kept_bytes(&mut random, pair.count());
            for _ in 0..4 {
                let at = configuration(&mut random, &pair);
                compared.ask(&pair, &kept, at);
            }
            let at = configuration(&mut random, &pair);
            let xy = letters(&mut random, &pair);
            compared.why(&pair, &kept, at, xy);
        }
    }
    compared.print("small random pairs");
    for rule in RULES {
        assert!(compared.calls("build", rule) >= 30_000);
        assert!(compared.met_under(rule, "build", 0, 0) >= 9_000);
        assert!(compared.met_under(rule, "build", 11, 0) >= 5_000);
        for call in ["ask", "why"] {
            for number in [0, 10, 12, 13] {
                let met = compared.met_under(rule, call, number, 0);
                assert!(met >= 1_000, "{call} {number} under rule {rule}");
            }
        }
        for side in 1..=2 {
            assert!(compared.met_under(rule, "why", 14, side) >= 1_000);
        }
    }
}

/// 16 by 16 states, 64 rows a side, bound 15: ask at random configurations,
/// over what was built and over bytes that nobody built; at two of them why for
/// every move too.
#[test]
fn large_pairs() {
    let mut compared = Compared::new();
    for letters in [8, 4, 2, 1] {
        for rule in RULES {
            let mut random = seeded(100 + u64::from(letters) + 1000 * rule);
            for _ in 0..40 {
                let pair = large_pair(&mut random, letters, rule);
                let (_, built) = compared.build(&pair, &patterned(4_100));
                let other = kept_bytes(&mut random, pair.count());
                for i in 0..100 {
                    let at = configuration(&mut random, &pair);
                    for kept in [&built, &other] {
                        if i < 2 {
                            compared.every_move(&pair, kept, at);
                        } else {
                            compared.ask(&pair, kept, at);
                        }
                    }
                }
            }
        }
    }
    compared.print("large random pairs");
}

/// Chains, long ways and the pairs with the most rounds that we know.
#[test]
fn pairs_by_construction() {
    let mut compared = Compared::new();
    for rule in RULES {
        for pair in chains(rule) {
            compared.build(&pair, &patterned(4_096));
        }
        for bound in [1, 2, 15] {
            for upward in [false, true] {
                compared.build(&long_way(bound, upward, rule), &patterned(4_096));
            }
        }
        for (pair, rounds) in many_rounds(rule) {
            let (built, kept) = compared.build(&pair, &patterned(4_096));
            assert_eq!(built.rounds, rounds);
            compared.ask(&pair, &kept, (0, 0, 0));
        }
    }
    compared.print("chains, long ways and many rounds");
}
