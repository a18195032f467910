//! A search for pairs with many rounds, by hill climbing over small changes:
//! `cargo run --release --offline --example search -- KIND SEED SECONDS RULE`,
//! where KIND is `dense` (from random pairs of full size), `small` (from
//! random pairs of up to 6 states a side), or `clocks` (from two clocks with
//! a spare state), and RULE is 0 or 1. Prints each best pair found.

use inputs::{clocks, hex_pair, large_pair, Pair, Parts, Random};
use second::builder::largest;
use std::time::{Duration, Instant};

/// A pair in parts with its number of rounds.
#[derive(Clone)]
struct Found {
    writer: Parts,
    reader: Parts,
    bound: u64,
    rule: u64,
    rounds: u64,
}

impl Found {
    fn of(writer: Parts, reader: Parts, bound: u64, rule: u64) -> Found {
        let mut found = Found {
            writer,
            reader,
            bound,
            rule,
            rounds: 0,
        };
        found.measure();
        found
    }

    fn pair(&self) -> Pair {
        Pair::of(&self.writer, &self.reader, self.bound, self.rule)
    }

    fn measure(&mut self) {
        let pair = self.pair();
        let pair = second::Pair::read(&pair.writer, &pair.reader, pair.bound, pair.rule).unwrap();
        self.rounds = largest(&pair).rounds;
    }
}

fn main() {
    let arguments: Vec<String> = std::env::args().collect();
    let kind = arguments[1].as_str();
    let mut random = Random::new(arguments[2].parse().unwrap());
    let seconds = Duration::from_secs(arguments[3].parse().unwrap());
    let rule = arguments[4].parse().unwrap();
    println!("{kind}, seed {}, {seconds:?}, rule {rule}", random.seed());
    let begun = Instant::now();
    let (mut best, mut tries) = (0, 0u64);
    while begun.elapsed() < seconds {
        let mut here = first(&mut random, kind, rule);
        let mut idle = 0;
        while begun.elapsed() < seconds && idle < 400 {
            tries += 1;
            idle += 1;
            let next = changed(&mut random, &here);
            if next.rounds >= here.rounds {
                if next.rounds > here.rounds {
                    idle = 0;
                }
                here = next;
            }
            if here.rounds > best {
                best = here.rounds;
                println!("rounds {best} after {tries} tries, {:?}", begun.elapsed());
                println!("{}", hex_pair(&here.pair()));
            }
        }
    }
    println!("best {best}, {tries} tries");
}

/// Where a climb begins: the best of a few.
fn first(random: &mut Random, kind: &str, rule: u64) -> Found {
    let mut best: Option<Found> = None;
    for _ in 0..10 {
        let found = match kind {
            "dense" => {
                let letters = random.byte_from_to(1, 3);
                let pair = large_pair(random, letters, rule);
                Found::of(Parts::of(&pair.writer), Parts::of(&pair.reader), 15, rule)
            }
            "small" => {
                let writer = random_side(random, 1);
                let reader = random_side(random, 2);
                Found::of(writer, reader, 15, rule)
            }
            _ => {
                let pair = clocks(16, 15, 2, rule);
                Found::of(Parts::of(&pair.writer), Parts::of(&pair.reader), 2, rule)
            }
        };
        if best.as_ref().is_none_or(|b| b.rounds < found.rounds) {
            best = Some(found);
        }
    }
    best.unwrap()
}

/// A dense side of up to 6 states.
fn random_side(random: &mut Random, role: u8) -> Parts {
    let states = random.byte_from_to(2, 6);
    let mut side = Parts {
        role,
        states,
        start: 0,
        finish: states - 1,
        letters: 2,
        rows: Vec::new(),
    };
    for _ in 0..4 * states {
        add_row(random, &mut side);
    }
    side.tidy();
    side
}

/// A new row anywhere, if there is room and its key is new.
fn add_row(random: &mut Random, side: &mut Parts) {
    let (state, drive) = (
        random.byte_below(side.states),
        random.byte_below(side.letters),
    );
    let (answer, item) = (random.byte_below(4), random.byte_below(2));
    if side.rows.len() < 64 && !side.has(state, drive, answer) {
        let next = random.byte_below(side.states);
        side.rows.push([state, drive, answer, item, next]);
    }
}

/// One to three small changes.
fn changed(random: &mut Random, found: &Found) -> Found {
    let mut next = found.clone();
    let changes = random.pick(&[1, 1, 1, 2, 2, 3]);
    for _ in 0..changes {
        let side = if random.chance(50) {
            &mut next.writer
        } else {
            &mut next.reader
        };
        change(random, side);
    }
    next.measure();
    next
}

/// One small change of one side.
fn change(random: &mut Random, side: &mut Parts) {
    if side.rows.is_empty() {
        add_row(random, side);
        return;
    }
    let row = random.below(side.rows.len() as u64) as usize;
    match random.below(8) {
        0 | 1 => side.rows[row][4] = random.byte_below(side.states),
        2 => side.rows[row][3] ^= 1,
        3 => {
            side.rows.remove(row);
        }
        4 => {
            side.rows.remove(row);
            add_row(random, side);
        }
        5 => side.finish = random.byte_below(side.states),
        _ => add_row(random, side),
    }
    side.tidy();
}
