//! Calls both builders, the proved one and the second one, and holds every
//! number and byte of the one to the other. A difference is printed with the
//! pair as bytes.

// Each test file uses a part of this one.
#![allow(dead_code)]

use bridge::{packed, Configuration, Rule};
use inputs::{hex, hex_pair, Pair};
use std::collections::BTreeMap;

/// Call, rule, number, side and reason, which is 0 but for why.
type Key = (&'static str, u64, u64, u64, u64);

/// What was compared: how often each key was met.
#[derive(Default)]
pub struct Compared(BTreeMap<Key, u64>);

/// A configuration: writer state, reader state, level.
type At = (u64, u64, u64);

impl Compared {
    pub fn new() -> Compared {
        Compared::default()
    }

    /// Both builds over a copy of `buffer`; returns what they left in it.
    pub fn build(&mut self, pair: &Pair, buffer: &[u8]) -> (second::Built, Vec<u8>) {
        let (mut ours, mut theirs) = (buffer.to_vec(), buffer.to_vec());
        let (writer, reader) = (&pair.writer[..], &pair.reader[..]);
        let number = packed::build(writer, reader, pair.bound, pair.rule, &mut ours);
        let built = second::build(writer, reader, pair.bound, pair.rule, &mut theirs);
        if number != built.packed() || ours != theirs {
            panic!(
                "build differs on\n{}\nbuffer of {} bytes\nproved: {number:#x}, bytes {}\nsecond: {:#x}, bytes {}",
                hex_pair(pair),
                buffer.len(),
                hex(&ours),
                built.packed(),
                hex(&theirs)
            );
        }
        self.meet(("build", pair.rule, built.number, built.side, 0));
        (built, theirs)
    }

    /// Both answers at a configuration, the set and the packed number.
    pub fn ask(&mut self, pair: &Pair, kept: &[u8], at: At) -> second::Asked {
        let (writer, reader) = (&pair.writer[..], &pair.reader[..]);
        let (bound, rule) = (pair.bound, pair.rule);
        let number = packed::ask(writer, reader, bound, rule, kept, ours(at));
        let set = packed::ask_set(writer, reader, bound, rule, kept, ours(at));
        let asked = second::ask(writer, reader, bound, rule, kept, theirs(at));
        if number != asked.packed() || set != asked.set {
            panic!(
                "ask differs on\n{}\nproved: {number:#x}, set {set:#x}\nsecond: {:#x}, set {:#x}",
                hex_question(pair, kept, at),
                asked.packed(),
                asked.set
            );
        }
        self.meet(("ask", rule, asked.number, asked.side, 0));
        asked
    }

    /// Both answers for a move at a configuration.
    pub fn why(&mut self, pair: &Pair, kept: &[u8], at: At, xy: (u64, u64)) {
        let (writer, reader) = (&pair.writer[..], &pair.reader[..]);
        let second = second::why(writer, reader, pair.bound, pair.rule, kept, theirs(at), xy);
        self.hold_why(pair, kept, at, xy, second);
    }

    /// The proved answer for a move, held to the second builder's.
    fn hold_why(
        &mut self,
        pair: &Pair,
        kept: &[u8],
        at: At,
        xy: (u64, u64),
        second: second::Explained,
    ) -> u64 {
        let (writer, reader) = (&pair.writer[..], &pair.reader[..]);
        let number = packed::why(writer, reader, pair.bound, pair.rule, kept, ours(at), xy);
        if number != second.packed() {
            panic!(
                "why differs on\n{}\nmove {xy:?}\nproved: {number:#x}\nsecond: {:#x}",
                hex_question(pair, kept, at),
                second.packed()
            );
        }
        let second::Explained { side, reason, .. } = second;
        self.meet(("why", pair.rule, second.number, side, reason));
        number
    }

    /// Both answers for a list; the wrapper has to say the same in words.
    pub fn check(&mut self, pair: &Pair, list: &[u8]) -> second::Checked {
        let (writer, reader) = (&pair.writer[..], &pair.reader[..]);
        let number = packed::check(writer, reader, pair.bound, pair.rule, list);
        let checked = second::check(writer, reader, pair.bound, pair.rule, list);
        if number != checked.packed() || !is_said(pair, list, checked) {
            panic!(
                "check differs on\n{}\nlist: {}\nproved: {number:#x}\nsecond: {:#x}",
                hex_pair(pair),
                hex(list),
                checked.packed()
            );
        }
        self.meet(("check", pair.rule, checked.number, checked.side, 0));
        checked
    }

    /// Ask, and why for all 64 moves, at a configuration: the moves of reason 0
    /// are ask's.
    pub fn every_move(&mut self, pair: &Pair, kept: &[u8], at: At) {
        let asked = self.ask(pair, kept, at);
        let Pair { bound, rule, .. } = *pair;
        // Read once for all moves, for speed.
        let read = second::Kept::read(&pair.writer, &pair.reader, bound, rule, kept);
        let mut allowed = 0;
        for bit in 0..64 {
            let xy = (bit / 8, bit % 8);
            let reason = match &read {
                Err(refusal) => Err(*refusal),
                Ok(kept) => kept.why(theirs(at), xy),
            };
            let second = second::Explained::of(reason);
            if self.hold_why(pair, kept, at, xy, second) == 0 {
                allowed |= 1 << bit;
            }
        }
        assert!(
            allowed == asked.set,
            "why and ask differ on\n{}\nwhy: {allowed:#x}, ask: {:#x}",
            hex_question(pair, kept, at),
            asked.set
        );
    }

    fn meet(&mut self, key: Key) {
        *self.0.entry(key).or_default() += 1;
    }

    /// Ask at every configuration of a good pair.
    pub fn ask_everywhere(&mut self, pair: &Pair, kept: &[u8]) {
        for at in configurations(pair) {
            self.ask(pair, kept, at);
        }
    }

    /// Ask, and why for all 64 moves, at every configuration of a good pair.
    pub fn every_move_everywhere(&mut self, pair: &Pair, kept: &[u8]) {
        for at in configurations(pair) {
            self.every_move(pair, kept, at);
        }
    }

    /// How often a call met a number and side, under any rule.
    pub fn met(&self, call: &'static str, number: u64, side: u64) -> u64 {
        self.count(|key| (key.0, key.2, key.3) == (call, number, side))
    }

    /// The same under one rule.
    pub fn met_under(&self, rule: u64, call: &'static str, number: u64, side: u64) -> u64 {
        self.count(|key| (key.0, key.1, key.2, key.3) == (call, rule, number, side))
    }

    /// How many answers of a call were compared under a rule.
    pub fn calls(&self, call: &'static str, rule: u64) -> u64 {
        self.count(|key| (key.0, key.1) == (call, rule))
    }

    /// How often why gave a reason under a rule.
    pub fn reasons(&self, rule: u64, reason: u64) -> u64 {
        self.count(|key| *key == ("why", rule, 0, 0, reason))
    }

    fn count(&self, counts: impl Fn(&Key) -> bool) -> u64 {
        let picked = self.0.iter().filter(|(key, _)| counts(key));
        picked.map(|(_, count)| count).sum()
    }

    /// Prints what was compared.
    pub fn print(&self, title: &str) {
        println!("{title}: all of these are equal");
        for ((call, rule, number, side, reason), count) in &self.0 {
            println!("  {call} under {rule}: {number} side {side} reason {reason}: {count}");
        }
    }
}

/// Does the wrapper say this of a list, and name the configuration of a faulty
/// place? It takes no number that is no rule.
fn is_said(pair: &Pair, list: &[u8], checked: second::Checked) -> bool {
    let Some(rule) = Rule::of(pair.rule) else {
        return true;
    };
    let said = bridge::check(&pair.writer, &pair.reader, pair.bound, rule, list);
    let Err(refusal) = said else {
        return checked.number == 0;
    };
    let at = match checked.number {
        19 | 20 => configurations(pair).nth(checked.row as usize).map(ours),
        _ => None,
    };
    let (side, row) = (refusal.side_number().into(), refusal.row.into());
    (u64::from(refusal.number), side, row) == (checked.number, checked.side, checked.row)
        && refusal.at == at
}

/// Every configuration of a good pair.
fn configurations(pair: &Pair) -> impl Iterator<Item = At> {
    let (n1, n2) = (u64::from(pair.writer[4]), u64::from(pair.reader[4]));
    let levels = pair.bound + 1;
    let places = 0..n1 * n2 * levels;
    places.map(move |place| (place / levels / n2, place / levels % n2, place % levels))
}

fn ours((writer, reader, level): At) -> Configuration {
    Configuration {
        writer,
        reader,
        level,
    }
}

fn theirs((writer, reader, level): At) -> second::Configuration {
    second::Configuration::of(writer, reader, level)
}

/// A pair, kept bytes and a configuration, for the message of a failure.
fn hex_question(pair: &Pair, kept: &[u8], at: At) -> String {
    format!("{}\nkept: {}\nat {at:?}", hex_pair(pair), hex(kept))
}

/// A generator whose seed is printed.
pub fn seeded(seed: u64) -> inputs::Random {
    println!("seed {seed}");
    inputs::Random::new(seed)
}
