//! The proved builder against four builders in safe Rust, under both rules, in
//! one run: `rust/with run --profile fast -p bench`. Not part of the gate.
//!
//! - ours: the proved builder, by its entry point
//! - same: the proved code function by function, with the same memory
//! - tuned: the same algorithm and memory, tuned
//! - one: the same memory, one configuration at a time
//! - heap: configurations, moves and witnesses on the heap, kept across rounds
//!
//! Every input is built by all first, and they have to agree. Then they take
//! turns, and the median of the turns of each is compared. Times are the
//! thread's own processor time, so that other work on the machine counts
//! little. A ratio below 1 says that the proved one is faster. Ask and check
//! are measured likewise, each beside its own in Rust.

mod checks;
mod clock;

use bench::{heap, one, same, tuned};
use bridge::{packed, Configuration};
use inputs::{chains, damaged_pair, large_pair, long_way, small_pair};
use inputs::{ManyRounds, Pair, Random, FLOW_THROUGH, MANY_ROUNDS, REGISTERED, RULES};
use std::hint::black_box;
use std::time::Duration;

/// Turns of each builder where a build is quick, and where it takes seconds.
const TURNS: usize = 9;
const FEW_TURNS: usize = 3;

/// A turn builds its pairs again until this much time has gone.
const TURN: Duration = Duration::from_millis(20);

type Builder = fn(&[u8], &[u8], u64, u64, &mut [u8]) -> u64;

const BUILDERS: [(&str, Builder); 5] = [
    ("ours", packed::build),
    ("same", same::build),
    ("tuned", tuned::build),
    ("one", one::build),
    ("heap", heap::build),
];

fn main() {
    // A last word picks groups: `bench dense`.
    let only = std::env::args().nth(1).unwrap_or_default();
    for (rule, groups) in [
        ("Registered", registered_groups()),
        (
            "Flow-through: what depends on the rule, and one of the three pairs with the most rounds",
            flow_through_groups(),
        ),
    ] {
        let picked = groups.iter().filter(|group| group.name.contains(&only));
        compare_groups(rule, &Vec::from_iter(picked));
    }
    if "ask".contains(&only) {
        RULES.iter().for_each(|rule| compare_asks(*rule));
    }
    if "check".contains(&only) {
        RULES.iter().for_each(|rule| checks::compare(*rule));
    }
}

struct Group {
    name: String,
    /// Where its pairs come from.
    source: String,
    pairs: Vec<Pair>,
    turns: usize,
}

/// All groups. Three of them do not depend on the rule and are measured here
/// only.
fn registered_groups() -> Vec<Group> {
    let mut groups = groups(REGISTERED);
    groups.extend([
        random_group("1,000 damaged pairs of either rule", 3, 1000, damaged_pair),
        fixed_group("a bare pair: one state a side, no rows", 0),
        fixed_group("the same refused with 9: both tables are read", 16),
    ]);
    groups.extend(many_rounds_groups(REGISTERED, 3));
    groups
}

/// The groups that depend on the rule; of the three with the most rounds, the
/// first.
fn flow_through_groups() -> Vec<Group> {
    let mut groups = groups(FLOW_THROUGH);
    groups.extend(many_rounds_groups(FLOW_THROUGH, 1));
    groups
}

/// Pairs with more than 300 rounds; of those with more than 3,000, which take
/// the longest to measure, the first few.
fn many_rounds_groups(rule: u64, few: usize) -> Vec<Group> {
    let many = MANY_ROUNDS.iter().filter(|found| found.rounds[0] > 300);
    let (most, others): (Vec<_>, Vec<_>) = many.partition(|found| found.rounds[0] > 3_000);
    let picked = most.into_iter().take(few).chain(others);
    picked.map(|found| many_rounds_group(found, rule)).collect()
}

fn groups(rule: u64) -> Vec<Group> {
    let dense = |letters| move |r: &mut Random| large_pair(r, letters, rule);
    vec![
        random_group("20 dense pairs, 8 letters", 1008, 20, dense(8)),
        random_group("20 dense pairs, 2 letters", 1002, 20, dense(2)),
        random_group("1,000 small pairs", 1, 1000, |r| small_pair(r, rule)),
        random_group("1,000 small pairs, any bound", 2, 1000, |r| {
            any_bound(r, rule)
        }),
        Group {
            name: "chains, 16 by 16 states".to_string(),
            source: "chains".to_string(),
            pairs: chains(rule),
            turns: TURNS,
        },
        Group {
            name: "2 long ways".to_string(),
            source: "long_way".to_string(),
            pairs: [false, true].map(|up| long_way(15, up, rule)).to_vec(),
            turns: TURNS,
        },
    ]
}

fn any_bound(random: &mut Random, rule: u64) -> Pair {
    let pair = small_pair(random, rule);
    let bound = random.below(16);
    Pair { bound, ..pair }
}

fn random_group(name: &str, seed: u64, count: usize, pair: impl Fn(&mut Random) -> Pair) -> Group {
    let mut random = Random::new(seed);
    Group {
        name: name.to_string(),
        source: format!("seed {seed}"),
        pairs: (0..count).map(|_| pair(&mut random)).collect(),
        turns: TURNS,
    }
}

/// What a build costs before it looks at a row.
fn fixed_group(name: &str, bound: u64) -> Group {
    let side = |role| vec![1, 0, 6, role, 1, 0, 0, 1, 0];
    Group {
        name: name.to_string(),
        source: "fixed_group".to_string(),
        pairs: vec![Pair {
            writer: side(1),
            reader: side(2),
            bound,
            rule: REGISTERED,
        }],
        turns: TURNS,
    }
}

fn many_rounds_group(found: &ManyRounds, rule: u64) -> Group {
    let rounds = found.rounds_under(rule);
    Group {
        name: format!("{rounds} rounds, {}", found.name),
        source: found.name.to_string(),
        pairs: vec![found.pair(rule)],
        turns: if rounds > 400 { FEW_TURNS } else { TURNS },
    }
}

/// What a builder returns and leaves in the lent bytes, past N too.
fn built(builder: Builder, pair: &Pair) -> (u64, [u8; 4100]) {
    let mut buffer = [7; 4100];
    let number = builder(
        &pair.writer,
        &pair.reader,
        pair.bound,
        pair.rule,
        &mut buffer,
    );
    (number, buffer)
}

/// All have to agree on number, kept, rounds and bytes.
fn agree(group: &Group) {
    for (i, pair) in group.pairs.iter().enumerate() {
        let (number, bytes) = built(packed::build, pair);
        for (name, builder) in &BUILDERS[1..] {
            let (other, left) = built(*builder, pair);
            assert!(
                number == other && bytes == left,
                "ours and {name} differ on pair {i} of {} ({}): {number:#x} and {other:#x}\n{}",
                group.name,
                group.source,
                inputs::hex_pair(pair)
            );
        }
    }
}

/// Microseconds a call, of a turn that makes a call for each of the list again
/// and again.
fn time_calls<T>(list: &[T], mut call: impl FnMut(&T) -> u64) -> f64 {
    let mut calls = 0;
    let begun = clock::now();
    loop {
        for input in list {
            black_box(call(black_box(input)));
        }
        calls += list.len();
        let taken = clock::now() - begun;
        if taken >= TURN {
            return taken.as_secs_f64() * 1e6 / calls as f64;
        }
    }
}

fn time_builds(builder: Builder, pairs: &[Pair]) -> f64 {
    let mut buffer = [0; 4096];
    time_calls(pairs, |pair| {
        builder(
            &pair.writer,
            &pair.reader,
            pair.bound,
            pair.rule,
            &mut buffer,
        )
    })
}

fn compare_groups(rule: &str, groups: &[&Group]) {
    if groups.is_empty() {
        return;
    }
    println!("\n{rule}\n");
    print_head();
    for group in groups {
        compare_builds(group);
    }
}

fn compare_builds(group: &Group) {
    agree(group);
    let mut times = BUILDERS.map(|_| Vec::new());
    for _ in 0..group.turns {
        for (times, (_, builder)) in times.iter_mut().zip(BUILDERS) {
            times.push(time_builds(builder, &group.pairs));
        }
    }
    print_row(&group.name, times.map(median));
}

fn print_head() {
    let names = BUILDERS.map(|(name, _)| name);
    let times = names.map(|name| format!("{name}, us"));
    let ratios = names[1..].iter().map(|name| format!("ours/{name}"));
    let columns: Vec<String> = times.into_iter().chain(ratios).collect();
    println!("| Input | {} |", columns.join(" | "));
    println!("|---|{}", "---|".repeat(columns.len()));
}

fn print_row(name: &str, times: [f64; BUILDERS.len()]) {
    let ratios = times[1..].iter().map(|time| times[0] / time);
    let columns: Vec<String> = times
        .into_iter()
        .chain(ratios)
        .map(|figure| format!("{figure:.2}"))
        .collect();
    println!("| {name} | {} |", columns.join(" | "));
}

fn median<T: PartialOrd + Copy>(mut list: Vec<T>) -> T {
    list.sort_by(|a, b| a.partial_cmp(b).expect("times have an order"));
    list[list.len() / 2]
}

/// A pair, its kept bytes and a configuration.
type Question = (Pair, Vec<u8>, Configuration);

/// Questions at kept configurations, of small and of large pairs.
fn questions(pairs: Vec<Pair>) -> Vec<Question> {
    let mut random = Random::new(2);
    let mut questions = Vec::new();
    for pair in pairs {
        let mut kept = vec![0; pair.count()];
        packed::build(&pair.writer, &pair.reader, pair.bound, pair.rule, &mut kept);
        for _ in 0..10 {
            let (writer, reader, level) = inputs::configuration(&mut random, &pair);
            let at = Configuration {
                writer,
                reader,
                level,
            };
            questions.push((pair.clone(), kept.clone(), at));
        }
    }
    questions
}

fn plain_set((pair, kept, at): &Question) -> u64 {
    one::ask_set(call(pair), kept, (at.writer, at.reader, at.level))
}

fn straight_set((pair, kept, at): &Question) -> u64 {
    one::ask_set_straight(call(pair), kept, (at.writer, at.reader, at.level))
}

fn call(pair: &Pair) -> one::Call<'_> {
    (&pair.writer, &pair.reader, pair.bound, pair.rule)
}

fn proved_set((pair, kept, at): &Question) -> u64 {
    let (writer, reader, bound, rule) = call(pair);
    packed::ask_set(writer, reader, bound, rule, kept, *at)
}

fn time_asks(ask: fn(&Question) -> u64, list: &[Question], calls: usize) -> Duration {
    let begun = clock::now();
    for _ in 0..calls {
        for question in list {
            black_box(ask(black_box(question)));
        }
    }
    clock::now() - begun
}

/// The three in turn, and their medians.
fn report(
    name: &str,
    calls: usize,
    proved: impl Fn() -> Duration,
    plain: impl Fn() -> Duration,
    straight: impl Fn() -> Duration,
) {
    let mut times = [Vec::new(), Vec::new(), Vec::new()];
    for _ in 0..TURNS {
        times[0].push(proved());
        times[1].push(plain());
        times[2].push(straight());
    }
    let [proved, plain, straight] = times.map(|list| median(list) * 1_000_000 / calls as u32);
    let ratio = |other: Duration| proved.as_secs_f64() / other.as_secs_f64();
    println!(
        "{name}: ratio {:.2} (proved {:.2} us a call, {:.0} calls a second; Rust {:.2} us); against a quicker reading {:.2}",
        ratio(plain),
        proved.as_secs_f64(),
        1e6 / proved.as_secs_f64(),
        plain.as_secs_f64(),
        ratio(straight)
    );
}

fn compare_asks(rule: u64) {
    let mut random = Random::new(3);
    let small = Vec::from_iter((0..1000).map(|_| small_pair(&mut random, rule)));
    let mut dense = Vec::from_iter((0..20).map(|_| large_pair(&mut random, 8, rule)));
    dense.extend(chains(rule));
    for (name, pairs, calls) in [
        ("ask, small pairs", small, 2),
        ("ask, dense pairs and chains", dense, 15),
    ] {
        let list = questions(pairs);
        for question in &list {
            assert_eq!(proved_set(question), plain_set(question));
            assert_eq!(proved_set(question), straight_set(question));
        }
        let proved = || time_asks(proved_set, &list, calls);
        let plain = || time_asks(plain_set, &list, calls);
        let straight = || time_asks(straight_set, &list, calls);
        let name = format!("{name}, rule {rule}");
        report(&name, calls * list.len(), proved, plain, straight);
    }
}
