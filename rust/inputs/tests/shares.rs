//! What the inputs meet, by our second builder. Run with `--nocapture` to see
//! the shares.

use inputs::*;
use second::{ask, build, listing, read, Built, Configuration, Kept, Reason, Side};
use std::collections::BTreeMap;

/// Build into a buffer that is large enough for any pair.
fn built(pair: &Pair) -> Built {
    let mut buffer = [0; 4096];
    build(
        &pair.writer,
        &pair.reader,
        pair.bound,
        pair.rule,
        &mut buffer,
    )
}

/// Counts by key, printed as shares of `total`.
fn print_shares<K: std::fmt::Debug>(title: &str, shares: &BTreeMap<K, u64>) {
    let total: u64 = shares.values().sum();
    println!("{title} ({total}):");
    for (key, count) in shares {
        let percent = 100.0 * *count as f64 / total as f64;
        println!("  {key:?}: {count} ({percent:.1} %)");
    }
}

/// Number and rounds of small pairs under a rule.
struct Shares {
    total: u64,
    by_rounds: BTreeMap<(u64, String), u64>,
}

impl Shares {
    /// Of 50,000 small pairs.
    fn of_small_pairs(rule: u64) -> Shares {
        let mut random = Random::new(20261115 + rule);
        println!("seed {}, rule {rule}", random.seed());
        let total = 50_000;
        let (mut by_rounds, mut real) = (BTreeMap::new(), 0);
        for _ in 0..total {
            let pair = small_pair(&mut random, rule);
            let result = built(&pair);
            assert!(
                result.number == 0 || result.number == 11,
                "{}",
                hex_pair(&pair)
            );
            let rounds = match result.rounds {
                1..=5 => format!("rounds {}", result.rounds),
                _ => "rounds 6 and more".to_string(),
            };
            *by_rounds.entry((result.number, rounds)).or_default() += 1;
            let ends_apart = |table: &[u8]| table[5] != table[6];
            let apart = ends_apart(&pair.writer) || ends_apart(&pair.reader);
            real += u64::from(result.number == 0 && apart);
        }
        println!(
            "accepted with start and finish apart: {} %",
            100 * real / total
        );
        print_shares("small pairs, number and rounds", &by_rounds);
        Shares { total, by_rounds }
    }

    fn count(&self, number: u64, rounds: &str) -> u64 {
        let key = (number, rounds.to_string());
        *self.by_rounds.get(&key).unwrap_or(&0)
    }

    fn percent(&self, number: u64, rounds: &str) -> u64 {
        100 * self.count(number, rounds) / self.total
    }

    fn percent_accepted(&self) -> u64 {
        let accepted = self.by_rounds.iter().filter(|(key, _)| key.0 == 0);
        100 * accepted.map(|(_, count)| count).sum::<u64>() / self.total
    }
}

#[test]
fn small_pairs() {
    for rule in RULES {
        let shares = Shares::of_small_pairs(rule);
        let accepted = shares.percent_accepted();
        println!("accepted: {accepted} %");
        assert!((30..=75).contains(&accepted));
        // The start is among all N, so a first round that removes nothing keeps
        // it: 11 after a single round cannot be.
        assert_eq!(shares.count(11, "rounds 1"), 0);
        assert!(shares.percent(11, "rounds 2") >= 5);
        assert!(shares.percent(11, "rounds 3") >= 5);
        assert!(shares.percent(11, "rounds 4") >= 1);
        assert!(shares.percent(0, "rounds 2") >= 5);
        assert!(shares.percent(0, "rounds 3") >= 2);
        for number in [0, 11] {
            for rounds in ["rounds 4", "rounds 5"] {
                assert!(shares.count(number, rounds) >= 50, "{number} {rounds}");
            }
        }
    }
}

/// For many a small pair the rule matters: for number, kept count or rounds.
/// What is kept when registered is kept under flow-through too.
#[test]
fn small_pairs_by_rule() {
    let mut random = Random::new(20261117);
    println!("seed {}", random.seed());
    let mut differ = 0;
    for _ in 0..10_000 {
        let pair = small_pair(&mut random, REGISTERED);
        let registered = built(&pair);
        let flow_through = built(&pair.under(FLOW_THROUGH));
        differ += u64::from(registered != flow_through);
        assert!(registered.kept <= flow_through.kept, "{}", hex_pair(&pair));
    }
    println!("{differ} of 10,000 differ by the rule");
    assert!(differ >= 2_500);
}

#[test]
fn large_pairs() {
    for letters in [8, 2] {
        for rule in RULES {
            let mut random = Random::new(7 + u64::from(letters) + 100 * rule);
            println!("seed {}", random.seed());
            let mut shares: BTreeMap<(u64, u64), u64> = BTreeMap::new();
            for _ in 0..30 {
                let pair = large_pair(&mut random, letters, rule);
                assert_eq!((pair.writer.len(), pair.reader.len()), (329, 329));
                let result = built(&pair);
                *shares.entry((result.number, result.rounds)).or_default() += 1;
            }
            print_shares(
                &format!("large pairs, {letters} letters, rule {rule}"),
                &shares,
            );
        }
    }
}

#[test]
fn chain_pairs() {
    for rule in RULES {
        let mut shares: BTreeMap<(u64, u64), u64> = BTreeMap::new();
        for pair in chains(rule) {
            assert_eq!(pair.count(), 4096);
            let result = built(&pair);
            *shares.entry((result.number, result.rounds)).or_default() += 1;
        }
        print_shares(
            &format!("chains under rule {rule}, number and rounds"),
            &shares,
        );
    }
}

/// Refusals of many tables as one side's.
fn refusals(tables: impl Iterator<Item = Vec<u8>>, side: Side) -> BTreeMap<u64, u64> {
    let mut shares = BTreeMap::new();
    for table in tables {
        let number = read(&table, side).map_or_else(|refusal| refusal.number, |_| 0);
        *shares.entry(number).or_default() += 1;
    }
    shares
}

#[test]
fn damaged_tables() {
    let mut random = Random::new(8);
    println!("seed {}", random.seed());
    let tables = (0..20_000).map(|_| {
        let good = small_pair(&mut random, REGISTERED).reader;
        damaged_table(&mut random, &good)
    });
    let shares = refusals(tables, Side::Reader);
    print_shares("damaged tables, refusal", &shares);
    for number in 1..=8 {
        assert!(shares[&number] >= 500, "refusal {number}");
    }
}

#[test]
fn damaged_pairs() {
    let mut random = Random::new(9);
    println!("seed {}", random.seed());
    let mut shares: BTreeMap<(u64, u64), u64> = BTreeMap::new();
    for _ in 0..20_000 {
        let result = built(&damaged_pair(&mut random));
        *shares.entry((result.number, result.side)).or_default() += 1;
    }
    print_shares("damaged pairs, refusal and side", &shares);
    for number in 1..=8 {
        assert!(
            shares[&(number, 1)] >= 500,
            "refusal {number} of the writer"
        );
        assert!(
            shares[&(number, 2)] >= 100,
            "refusal {number} of the reader"
        );
    }
    assert!(shares[&(9, 0)] >= 20);
    assert!(shares[&(17, 0)] >= 20);
}

#[test]
fn prefixes_and_single_changes() {
    let mut random = Random::new(10);
    println!("seed {}", random.seed());
    for _ in 0..20 {
        let good = small_pair(&mut random, REGISTERED).writer;
        assert_eq!(prefixes(&good).count(), good.len() + 1);
        let shares = refusals(prefixes(&good), Side::Writer);
        assert_eq!(shares[&0], 1);
        assert_eq!(shares[&1], 9);
    }
    let table = writer_with_rows(&mut random, 6);
    let shares = refusals(single_changes(&table), Side::Writer);
    print_shares("single bytes changed, refusal", &shares);
    assert_eq!(shares.values().sum::<u64>(), 255 * table.len() as u64);
    assert_eq!(shares[&2], 255);
    // A single byte of length or count of rows is always 3.
    assert_eq!(shares[&3], 3 * 255);
    assert_eq!(shares[&4], 255);
    for number in 5..=8 {
        assert!(shares.contains_key(&number), "refusal {number}");
    }
}

/// A small writer's table with at least this many rows.
fn writer_with_rows(random: &mut Random, rows: u8) -> Vec<u8> {
    loop {
        let table = small_pair(random, REGISTERED).writer;
        if table[8] >= rows {
            return table;
        }
    }
}

/// The limits, with what stands in the lent buffer afterwards.
#[test]
fn limit_calls() {
    let mut shares: BTreeMap<(u64, u64), u64> = BTreeMap::new();
    for call in limits() {
        let Pair {
            writer,
            reader,
            bound,
            rule,
        } = &call.pair;
        let mut buffer = call.buffer.clone();
        let result = build(writer, reader, *bound, *rule, &mut buffer);
        *shares.entry((result.number, result.side)).or_default() += 1;
        let expected = if writer[8] > 64 {
            (5, 1)
        } else if reader[8] > 64 {
            (5, 2)
        } else if *bound > 15 {
            (9, 0)
        } else if *rule > 1 {
            (17, 0)
        } else if call.buffer.len() < call.pair.count() {
            (10, 0)
        } else {
            assert!(result.number == 0 || result.number == 11, "{}", call.name);
            (result.number, 0)
        };
        assert_eq!((result.number, result.side), expected, "{}", call.name);
        check_buffer(&call, &result, &buffer);
    }
    print_shares("limits, number and side", &shares);
}

fn check_buffer(call: &Call, result: &Built, buffer: &[u8]) {
    match result.number {
        0 => {
            let (first, rest) = buffer.split_at(call.pair.count());
            let ones = first.iter().filter(|byte| **byte == 1).count() as u64;
            let zeros = first.iter().filter(|byte| **byte == 0).count() as u64;
            assert_eq!((ones, ones + zeros), (result.kept, first.len() as u64));
            assert_eq!(rest, &call.buffer[first.len()..], "{}", call.name);
        }
        11 => {
            let (first, rest) = buffer.split_at(call.pair.count());
            assert!(first.iter().all(|byte| *byte == 0), "{}", call.name);
            assert_eq!(rest, &call.buffer[first.len()..], "{}", call.name);
            assert_eq!(result.kept, 0);
        }
        _ => {
            assert_eq!(buffer, call.buffer, "{}", call.name);
            assert_eq!((result.kept, result.rounds), (0, 0));
        }
    }
}

#[test]
fn listing_inputs() {
    let mut random = Random::new(12);
    println!("seed {}", random.seed());
    let mut shares: BTreeMap<String, u64> = BTreeMap::new();
    let (mut empty, mut long) = (0, 0);
    for _ in 0..20_000 {
        let input = listing_input(&mut random);
        empty += u64::from(input.is_empty());
        long += u64::from(input.len() > 1024);
        let text = listing(&input);
        assert!(text.ends_with('\n') && !text.ends_with("\n\n"));
        let first = text.lines().next().unwrap().to_string();
        let key = match first.split_once(" row ") {
            Some((refused, _)) => refused.to_string(),
            None => "converter".to_string(),
        };
        *shares.entry(key).or_default() += 1;
    }
    print_shares("listing inputs, first line", &shares);
    println!("empty {empty}, longer than 1,024 bytes {long}");
    assert!(empty >= 20 && long >= 500);
    for number in 1..=8 {
        for side in 1..=2 {
            let key = format!("refused {number} side {side}");
            assert!(shares.contains_key(&key), "{key}");
        }
    }
    assert!(shares["refused 9 side 0"] >= 100);
    assert!(shares["refused 17 side 0"] >= 100);
    assert!(shares["refused 11 side 0"] >= 1000);
    assert!(shares["converter"] >= 1000);
}

/// Moves that meet each reason often, over what is built and over bytes that
/// nobody built.
#[test]
fn many_moves_pairs() {
    for rule in RULES {
        let mut random = Random::new(15 + rule);
        println!("seed {}", random.seed());
        let (mut numbers, mut reasons) = (BTreeMap::new(), BTreeMap::new());
        for _ in 0..1_000 {
            let pair = many_moves_pair(&mut random, rule);
            let mut kept = kept_set(&mut random, pair.count());
            if random.chance(50) {
                let result = build(&pair.writer, &pair.reader, pair.bound, rule, &mut kept);
                *numbers.entry(result.number).or_default() += 1;
            }
            let kept = Kept::read(&pair.writer, &pair.reader, pair.bound, rule, &kept).unwrap();
            for reason in all_reasons(&kept) {
                *reasons.entry(reason).or_default() += 1;
            }
        }
        print_shares("pairs with many moves, number", &numbers);
        print_shares("pairs with many moves, reason", &reasons);
        assert!(numbers[&0] >= 200 && numbers[&11] >= 50);
        assert!(reasons.len() == 7 && reasons.values().all(|count| *count >= 3_000));
    }
}

/// The reasons of all moves at all configurations.
fn all_reasons(kept: &Kept) -> Vec<Reason> {
    let mut reasons = Vec::new();
    for at in kept.pair.configurations() {
        for bit in 0..64 {
            reasons.extend(kept.why(at, (bit / 8, bit % 8)));
        }
    }
    reasons
}

/// Kept bytes, configurations, runs and cycles meet each refusal of ask and
/// step, and each reason of a step's.
#[test]
fn questions_and_steps() {
    let mut random = Random::new(13);
    println!("seed {}", random.seed());
    let mut asked_shares: BTreeMap<u64, u64> = BTreeMap::new();
    let mut moves: BTreeMap<u64, u64> = BTreeMap::new();
    let mut step_shares: BTreeMap<(u64, u64, u64), u64> = BTreeMap::new();
    for _ in 0..50_000 {
        let rule = random.pick(&RULES);
        let mut pair = small_pair(&mut random, rule);
        let mut kept = kept_bytes(&mut random, pair.count());
        if random.chance(40) {
            kept = vec![0; pair.count()];
            build(&pair.writer, &pair.reader, pair.bound, pair.rule, &mut kept);
        }
        if random.chance(2) {
            pair.rule = random.pick(&NO_RULES);
        }
        let (w, r, l) = configuration(&mut random, &pair);
        let asked = ask(
            &pair.writer,
            &pair.reader,
            pair.bound,
            pair.rule,
            &kept,
            Configuration::of(w, r, l),
        );
        *asked_shares.entry(asked.number).or_default() += 1;
        *moves.entry(asked.count).or_default() += 1;

        let run = run(&mut random, &pair);
        let cycle = cycle(&mut random, &pair, &run);
        let stepped = second::step(
            &pair.writer,
            &pair.reader,
            pair.bound,
            pair.rule,
            &kept,
            &second_run(&run),
            &second_cycle(&cycle),
        );
        let key = (stepped.number, stepped.side, stepped.row);
        *step_shares.entry(key).or_default() += 1;
    }
    print_shares("ask, number", &asked_shares);
    print_shares("ask, count of moves", &moves);
    print_shares("step, number, side and row", &step_shares);
    for number in [0, 10, 12, 13, 17] {
        assert!(asked_shares[&number] >= 100, "ask {number}");
    }
    let all = [
        (0, 0, 0),
        (17, 0, 0),
        (10, 0, 0),
        (12, 0, 0),
        (13, 0, 0),
        (14, 1, 0),
        (14, 2, 0),
        (16, 1, 0),
        (16, 2, 0),
    ];
    let reasons = (1..=6).map(|reason| (15, 0, reason));
    for key in all.into_iter().chain(reasons) {
        assert!(step_shares[&key] >= 100, "step {key:?}");
    }
}

fn second_run(run: &Run) -> second::Run {
    second::Run {
        writer: run.writer,
        reader: run.reader,
        level: run.level,
        items: run.items,
    }
}

fn second_cycle(cycle: &Cycle) -> second::Cycle {
    second::Cycle {
        writer_letter: cycle.writer_letter,
        reader_letter: cycle.reader_letter,
        writer_answer: cycle.writer_answer,
        reader_answer: cycle.reader_answer,
        incoming: cycle.incoming,
    }
}

/// Deterministic from the seed.
#[test]
fn same_seed_same_inputs() {
    let (mut one, mut two) = (Random::new(5), Random::new(5));
    for _ in 0..100 {
        assert_eq!(small_pair(&mut one, 0), small_pair(&mut two, 0));
        assert_eq!(damaged_pair(&mut one), damaged_pair(&mut two));
        assert_eq!(listing_input(&mut one), listing_input(&mut two));
    }
}

#[test]
fn long_ways() {
    for rule in RULES {
        for bound in [1, 2, 15] {
            for upward in [false, true] {
                let pair = long_way(bound, upward, rule);
                let result = built(&pair);
                println!("long way, bound {bound}, upward {upward}, rule {rule}: {result:?}");
                assert_eq!((result.number, result.rounds), (0, 2));
                assert_eq!(result.kept, 240 * bound + 15 * rule);
            }
        }
    }
}

#[test]
fn many_rounds_are_as_measured() {
    for rule in RULES {
        for (pair, rounds) in many_rounds(rule) {
            let result = built(&pair);
            println!("N {}, rule {rule}: {result:?}", pair.count());
            assert_eq!(result.rounds, rounds, "{}", hex_pair(&pair));
        }
    }
}
