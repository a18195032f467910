//! The text of the listing program against the second builder's.

use inputs::listings::joined;
use inputs::{all_kept, chains, clocks, hex, large_pair, limits, listing_input, long_way};
use inputs::{small_pair, Pair, Random, FLOW_THROUGH, REGISTERED, RULES};
use listing::{printed, printed_in_parts};
use std::collections::{BTreeMap, BTreeSet};

/// The first words of a listing: `converter`, or `refused` and its number.
fn kind(text: &str) -> String {
    let mut words = text.split(' ');
    match words.next() {
        Some("refused") => format!("refused {}", words.next().unwrap_or("")),
        word => word.unwrap_or("").to_string(),
    }
}

/// Compares the two texts; a failure prints the input as hex. Gives the text.
fn compare(input: &[u8]) -> String {
    let text = printed(input);
    assert!(
        text == second::listing(input),
        "input: {}\nthe program:\n{text}\nthe second builder:\n{}",
        hex(input),
        second::listing(input)
    );
    text
}

/// Compares the listings of a pair at its bound under its rule.
fn compare_pair(pair: &Pair) -> String {
    compare(&joined(pair))
}

/// Random and damaged inputs, and how many there were of each kind.
fn random_inputs(seed: u64, count: u64) -> BTreeMap<String, u64> {
    let mut random = Random::new(seed);
    println!("seed {seed}, {count} inputs");
    let mut kinds = BTreeMap::new();
    for _ in 0..count {
        let input = listing_input(&mut random);
        *kinds.entry(kind(&compare(&input))).or_insert(0) += 1;
    }
    println!("{kinds:?}");
    kinds
}

#[test]
fn random_and_damaged() {
    for seed in [901, 902] {
        let kinds = random_inputs(seed, 400);
        assert!(kinds["converter"] > 30 && kinds["refused 11"] > 30);
        // 10 cannot come: the program's buffer has room for any pair.
        for number in [1, 2, 3, 4, 5, 6, 7, 8, 9, 17] {
            assert!(kinds.contains_key(&format!("refused {number}")));
        }
    }
}

#[test]
fn no_input() {
    assert_eq!(compare(&[]).lines().count(), 19);
}

/// A good pair whose listing is long enough to see a change in, and is not the
/// same under the other rule.
fn good_pair(rule: u64) -> Pair {
    let mut random = Random::new(903 + rule);
    println!("seed {}", random.seed());
    loop {
        let pair = small_pair(&mut random, rule);
        let [registered, flow_through] = RULES.map(|rule| lines(&pair.under(rule)));
        if registered.len() > 10 && flow_through.len() > 10 && registered[1..] != flow_through[1..]
        {
            return pair;
        }
    }
}

/// The lines of the second builder's listing.
fn lines(pair: &Pair) -> Vec<String> {
    let text = second::listing(&joined(pair));
    text.lines().map(String::from).collect()
}

/// Every prefix of two tables, bound, rule and later bytes. A missing bound is
/// 0, a missing rule is 1, and no later byte changes the text.
#[test]
fn every_prefix() {
    for rule in RULES {
        let pair = good_pair(rule);
        let tables = pair.writer.len() + pair.reader.len();
        let longer = [&joined(&pair)[..], &[0, 1, 2, 255, 10, 7]].concat();
        let texts: Vec<String> = (0..=longer.len()).map(|n| compare(&longer[..n])).collect();
        let (cut, listed) = texts.split_at(tables);
        assert!(cut[1..].iter().all(|text| text.starts_with("refused ")));
        let no_rule = pair.under(FLOW_THROUGH);
        let no_bound = Pair {
            bound: 0,
            ..no_rule.clone()
        };
        let expected = [no_bound, no_rule, pair].map(|pair| compare_pair(&pair));
        assert_eq!(listed[..3], expected);
        assert!(listed[3..].iter().all(|text| *text == expected[2]));
    }
}

#[test]
fn later_bytes() {
    let good = joined(&good_pair(FLOW_THROUGH));
    let text = compare(&good);
    for end in 0..=255 {
        assert_eq!(compare(&[&good[..], &[end]].concat()), text);
    }
    for length in [1023, 1024, 1025, 4096, 65536] {
        for filler in [0, 1, 10] {
            let mut long = good.clone();
            long.resize(length, filler);
            assert_eq!(compare(&long), text);
        }
    }
}

/// Every byte as the bound, and every byte as the rule.
#[test]
fn every_bound_and_rule() {
    let good = joined(&good_pair(REGISTERED));
    let (bound, rule) = (good.len() - 2, good.len() - 1);
    for byte in 0..=255 {
        let mut input = good.clone();
        input[bound] = byte;
        let text = compare(&input);
        assert!(byte < 16 || text == "refused 9 side 0 row 0\n");
        let mut input = good.clone();
        input[rule] = byte;
        let text = compare(&input);
        assert!(byte < 2 || text == "refused 17 side 0 row 0\n");
    }
}

/// A length field of the reader that says each number near the true one, and
/// some far from it.
#[test]
fn the_readers_cut() {
    let pair = good_pair(REGISTERED);
    let good = joined(&pair);
    let field = pair.writer.len() + 1;
    let far = [(0, 0), (0, 255), (1, 0), (128, 0), (255, 255)];
    let near = (good[field + 1] - 6..=good[field + 1] + 6).map(|low| (0, low));
    for (high, low) in near.chain(far) {
        let mut input = good.clone();
        (input[field], input[field + 1]) = (high, low);
        let text = compare(&input);
        assert!(input == good || text.starts_with("refused "));
    }
}

#[test]
fn short_reads() {
    let good = joined(&good_pair(REGISTERED));
    let whole = second::listing(&good);
    for n in 1..good.len() {
        assert_eq!(printed_in_parts(&[&good[..n], &good[n..]]), whole);
    }
    let bytes: Vec<&[u8]> = good.chunks(1).collect();
    assert_eq!(printed_in_parts(&bytes), whole);
}

/// Full tables: 16 states and 64 rows a side, bound 15.
#[test]
fn full_size() {
    let mut random = Random::new(904);
    println!("seed {}", random.seed());
    let mut longest = 0;
    for letters in 1..=8 {
        for rule in [0, 1, 0, 1] {
            let text = compare_pair(&large_pair(&mut random, letters, rule));
            longest = longest.max(text.lines().count());
        }
    }
    for rule in RULES {
        let all = compare_pair(&all_kept(rule));
        assert_eq!(all.lines().count(), 1 + 4096);
    }
    println!("longest random listing: {longest} lines");
}

/// One state a side that has all eight letters: a line of 64 moves.
#[test]
fn sixty_four_moves() {
    let side = |role| inputs::Parts {
        role,
        states: 1,
        start: 0,
        finish: 0,
        letters: 8,
        rows: (0..8).map(|letter| [0, letter, 0, 0, 0]).collect(),
    };
    for rule in RULES {
        let text = compare_pair(&Pair::of(&side(1), &side(2), 0, rule));
        assert_eq!(text.matches('.').count(), 64);
    }
}

/// The bytes of bound and rule are the low ones of the numbers.
#[test]
fn at_the_limits() {
    let inputs: BTreeSet<Vec<u8>> = limits().iter().map(|call| joined(&call.pair)).collect();
    println!("{} inputs", inputs.len());
    for input in inputs {
        compare(&input);
    }
}

/// Chains in which most rows matter, clocks that lose one configuration a
/// round, and ways that are as long as can be.
#[test]
fn many_rounds_and_long_ways() {
    for rule in RULES {
        for pair in chains(rule) {
            compare_pair(&pair);
        }
        for bound in [1, 7, 15] {
            compare_pair(&clocks(4, 3, bound, rule));
            compare_pair(&long_way(bound, true, rule));
            compare_pair(&long_way(bound, false, rule));
        }
        compare_pair(&clocks(16, 15, 15, rule));
    }
}
