//! The proved check against the one in safe Rust, on lists of our own sets, and
//! beside the proved build of the same pairs.

use crate::{any_bound, median, time_builds, time_calls, TURNS};
use bench::check;
use bench::own::own_list;
use bridge::packed;
use inputs::{all_kept, chains, large_pair, list_bytes, longest_way, small_pair, Pair, Random};

type Checker = fn(&[u8], &[u8], u64, u64, &[u8]) -> u64;

const CHECKERS: [Checker; 2] = [packed::check, check::check];

/// An accepted pair and the list of its own sets.
type Input = (Pair, Vec<u8>);

pub fn compare(rule: u64) {
    println!("\nCheck of accepted lists, rule {rule}\n");
    println!("| Lists | ours, us | Rust, us | ours/Rust | build, us | ours/build |");
    println!("|---|---|---|---|---|---|");
    for (name, list) in groups(rule) {
        compare_group(name, &list);
    }
}

fn groups(rule: u64) -> [(&'static str, Vec<Input>); 7] {
    let mut random = Random::new(6);
    let mut some = |count, pair: fn(&mut Random, u64) -> Pair| {
        inputs((0..count).map(|_| pair(&mut random, rule)))
    };
    let eight = |random: &mut Random, rule| large_pair(random, 8, rule);
    let four = |random: &mut Random, rule| large_pair(random, 4, rule);
    [
        ("small pairs", some(1_000, small_pair)),
        ("small pairs, any bound", some(1_000, any_bound)),
        ("dense pairs, 8 letters", some(20, eight)),
        ("dense pairs, 4 letters", some(30, four)),
        ("pair of which all 4,096 are kept", inputs([all_kept(rule)])),
        ("chains, 16 by 16 states", inputs(chains(rule))),
        ("ways through all 4,096", longest_ways(rule)),
    ]
}

/// The pairs that are accepted, each with the list of its own sets.
fn inputs(pairs: impl IntoIterator<Item = Pair>) -> Vec<Input> {
    let with_list = |pair: Pair| own_list(&pair).map(|list| (pair, list));
    pairs.into_iter().filter_map(with_list).collect()
}

/// One move a place, with the states numbered along the way and against it.
fn longest_ways(rule: u64) -> Vec<Input> {
    let ways = [false, true].map(|upward| longest_way(upward, rule));
    ways.map(|(pair, sets)| (pair, list_bytes(&sets))).to_vec()
}

fn call(check: Checker, (pair, list): &Input) -> u64 {
    check(&pair.writer, &pair.reader, pair.bound, pair.rule, list)
}

fn compare_group(name: &str, list: &[Input]) {
    assert!(!list.is_empty(), "no pair is accepted: {name}");
    for input in list {
        let numbers = CHECKERS.map(|check| call(check, input));
        assert_eq!(numbers, [0, 0], "{}", inputs::hex_pair(&input.0));
    }
    let pairs = Vec::from_iter(list.iter().map(|(pair, _)| pair.clone()));
    let mut builds = Vec::new();
    let mut times = CHECKERS.map(|_| Vec::new());
    for _ in 0..TURNS {
        for (times, check) in times.iter_mut().zip(CHECKERS) {
            times.push(time_calls(list, |input| call(check, input)));
        }
        builds.push(time_builds(packed::build, &pairs));
    }
    let ([ours, rust], build) = (times.map(median), median(builds));
    let figures = [ours, rust, ours / rust, build, ours / build];
    let figures = figures.map(|figure| format!("{figure:.2}"));
    println!("| {} {name} | {} |", list.len(), figures.join(" | "));
}
