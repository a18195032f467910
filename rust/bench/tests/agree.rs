//! The four builders in Rust against the second builder, under both rules:
//! number, side, row, kept, rounds and every byte, past N too; and the check in
//! Rust. A difference is printed with the pair as bytes.

use bench::{check, heap, one, same, tuned};
use inputs::*;
use std::collections::BTreeMap;

type Builder = fn(&[u8], &[u8], u64, u64, &mut [u8]) -> u64;

const QUICK: [(&str, Builder); 3] = [
    ("same", same::build),
    ("tuned", tuned::build),
    ("heap", heap::build),
];

const ALL: [(&str, Builder); 5] = [
    ("same", same::build),
    ("tuned", tuned::build),
    ("one", one::build),
    ("one, read straight", one::build_straight),
    ("heap", heap::build),
];

/// How often each number was met under each rule.
#[derive(Default)]
struct Met(BTreeMap<(u64, u64), u64>);

impl Met {
    /// All builders over a copy of `before`.
    fn build(&mut self, pair: &Pair, before: &[u8]) {
        let Pair {
            writer,
            reader,
            bound,
            rule,
        } = pair;
        let mut expected = before.to_vec();
        let built = second::build(writer, reader, *bound, *rule, &mut expected);
        for (name, builder) in ALL {
            let mut left = before.to_vec();
            let number = builder(writer, reader, *bound, *rule, &mut left);
            assert!(
                number == built.packed() && left == expected,
                "{name} differs on\n{}\nbuffer of {} bytes\n{name}: {number:#x}, bytes {}\nsecond: {:#x}, bytes {}",
                hex_pair(pair),
                before.len(),
                hex(&left),
                built.packed(),
                hex(&expected)
            );
        }
        *self.0.entry((*rule, built.number)).or_default() += 1;
    }

    /// How often a number was met, under any rule.
    fn met(&self, number: u64) -> u64 {
        let met = self.0.iter().filter(|((_, met), _)| *met == number);
        met.map(|(_, count)| count).sum()
    }

    fn print(&self, title: &str) {
        let builds: u64 = self.0.values().sum();
        println!(
            "{title}: {builds} builds are equal, by rule and number {:?}",
            self.0
        );
    }
}

/// A generator whose seed is printed.
fn seeded(seed: u64) -> Random {
    println!("seed {seed}");
    Random::new(seed)
}

/// The pair with another bound.
fn at(bound: u64, pair: Pair) -> Pair {
    Pair { bound, ..pair }
}

/// Every bound with each rule.
fn bounds_and_rules() -> impl Iterator<Item = (u64, u64)> {
    (0..16).flat_map(|bound| RULES.map(|rule| (bound, rule)))
}

/// The three layouts of masks are those of bounds 0, 1 to 7 and 8 to 15.
#[test]
fn small_pairs_at_every_bound() {
    let mut met = Met::default();
    for (bound, rule) in bounds_and_rules() {
        let mut random = seeded(20261200 + bound + 1000 * rule);
        for _ in 0..200 {
            let pair = at(bound, small_pair(&mut random, rule));
            let more = random.below(4) as usize;
            met.build(&pair, &patterned(pair.count() + more));
        }
    }
    met.print("small pairs at every bound");
    for rule in RULES {
        assert!(met.0[&(rule, 0)] >= 1_000 && met.0[&(rule, 11)] >= 500);
    }
}

#[test]
fn large_pairs_at_every_bound() {
    let mut met = Met::default();
    for (bound, rule) in bounds_and_rules() {
        let mut random = seeded(20261300 + bound + 1000 * rule);
        let letters = if bound % 2 == 0 { [8, 2] } else { [4, 1] };
        for letters in letters {
            let pair = at(bound, large_pair(&mut random, letters, rule));
            met.build(&pair, &patterned(4_100));
        }
    }
    met.print("large pairs at every bound");
}

#[test]
fn clocks_at_every_bound() {
    let mut met = Met::default();
    for (bound, rule) in bounds_and_rules() {
        met.build(&clocks(4, 3, bound, rule), &patterned(4_096));
        met.build(&clocks(3, 4, bound, rule), &patterned(4_096));
    }
    met.print("clocks at every bound");
}

#[test]
fn refused_pairs() {
    let mut met = Met::default();
    let mut random = seeded(20261400);
    for _ in 0..3_000 {
        met.build(&damaged_pair(&mut random), &patterned(100));
    }
    let small = |call: &Call| call.pair.bound != 15 || call.buffer.len() < call.pair.count();
    for call in limits().iter().filter(|call| small(call)) {
        met.build(&call.pair, &call.buffer);
    }
    met.print("refused pairs");
    for number in (1..=11).chain([17]) {
        assert!(met.met(number) >= 10, "refusal {number}");
    }
}

#[test]
fn chains_and_long_ways() {
    let mut met = Met::default();
    for rule in RULES {
        for pair in chains(rule).into_iter().step_by(5) {
            met.build(&pair, &patterned(4_096));
        }
        for (bound, upward) in [(1, false), (3, true), (9, false)] {
            met.build(&long_way(bound, upward, rule), &patterned(4_096));
        }
    }
    met.print("chains and long ways");
}

/// The second builder and the one-by-one builder take seconds for these; what
/// the second one measured is stored with them.
#[test]
fn many_rounds_as_measured() {
    for rule in RULES {
        for (pair, rounds) in many_rounds(rule) {
            let built = QUICK.map(|(name, builder)| {
                let mut bytes = patterned(4_100);
                let number = builder(&pair.writer, &pair.reader, pair.bound, rule, &mut bytes);
                (name, number, bytes)
            });
            let (_, number, bytes) = &built[0];
            for (name, other, left) in &built {
                assert!(
                    other >> 48 == rounds && other == number && left == bytes,
                    "{name} differs on\n{}",
                    hex_pair(&pair)
                );
            }
            println!("{rounds} rounds under rule {rule}: same, tuned and heap are equal");
        }
    }
}

/// The sets of `one` against the second builder's, at a refusal too.
#[test]
fn sets_of_moves() {
    let mut random = seeded(20261500);
    let (mut sets, mut refused) = ([0, 0], 0);
    for _ in 0..4_000 {
        let rule = random.pick(&[0, 0, 0, 1, 1, 1, 2]);
        let pair = small_pair(&mut random, rule);
        let kept = kept_bytes(&mut random, pair.count());
        let (w, r, l) = configuration(&mut random, &pair);
        let call = (&pair.writer[..], &pair.reader[..], pair.bound, rule);
        let at = second::Configuration::of(w, r, l);
        let asked = second::ask(call.0, call.1, call.2, call.3, &kept, at);
        let found = [
            one::ask_set(call, &kept, (w, r, l)),
            one::ask_set_straight(call, &kept, (w, r, l)),
        ];
        assert!(
            found == [asked.set; 2],
            "sets {found:#x?} and {:#x} differ on\n{}\nkept: {}\nat {w} {r} {l}",
            asked.set,
            hex_pair(&pair),
            hex(&kept)
        );
        match asked.number {
            0 => sets[rule as usize] += u64::from(asked.set != 0),
            _ => refused += 1,
        }
    }
    println!("sets that are not empty, by rule: {sets:?}; refused: {refused}");
    assert!(sets[0] >= 500 && sets[1] >= 500 && refused >= 500);
}

/// The check of lists against the second builder's, small, of full size, and
/// wrong; of damaged pairs too.
#[test]
fn checks_of_lists() {
    let mut random = seeded(20261600);
    let mut met = BTreeMap::new();
    let mut compare = |pair: &Pair, list: &[u8]| {
        let call = (&pair.writer[..], &pair.reader[..], pair.bound, pair.rule);
        let number = check::check(call.0, call.1, call.2, call.3, list);
        let checked = second::check(call.0, call.1, call.2, call.3, list);
        assert!(
            number == checked.packed(),
            "check {number:#x} and {:#x} differ on\n{}\nlist: {}",
            checked.packed(),
            hex_pair(pair),
            hex(list)
        );
        *met.entry((pair.rule, checked.number)).or_default() += 1;
    };
    for i in 0..20_000 {
        let rule = RULES[i % 2];
        let pair = match i % 7 {
            0 => many_moves_pair(&mut random, rule),
            1 => at(random.below(16), small_pair(&mut random, rule)),
            _ => small_pair(&mut random, rule),
        };
        let sets = random_sets(&mut random, &pair);
        compare(&pair, &list_bytes(&sets));
        if i % 101 == 0 {
            for (_, list) in wrong_lists(&sets, pair.bound as usize + 1) {
                compare(&pair, &list);
            }
        }
        compare(&damaged_pair(&mut random), &list_bytes(&sets));
    }
    for rule in RULES {
        for letters in 1..=8 {
            let pair = large_pair(&mut random, letters, rule);
            for _ in 0..3 {
                compare(&pair, &list_bytes(&random_sets(&mut random, &pair)));
            }
        }
        for upward in [false, true] {
            let (pair, sets) = longest_way(upward, rule);
            compare(&pair, &list_bytes(&sets));
        }
    }
    println!("checks that are equal, by rule and number: {met:?}");
    for rule in RULES {
        for number in (1..=9).chain(18..=20).chain([0]) {
            let count: u64 = met.get(&(rule, number)).copied().unwrap_or(0);
            assert!(count >= 10, "{number} under rule {rule}: {count}");
        }
    }
}
