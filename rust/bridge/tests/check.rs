//! Permission lists on both builders, through the packed entry point and
//! through the wrapper. Where the making of a list says what check has to say
//! of it, that is asserted too.
//!
//! A program without the test harness, as `reasons.rs` is and for its reason.

mod board;
mod compare;

use board::Board;
use bridge::{Moves, Permissions, Reason, Refusal, Rule};
use compare::{seeded, Compared};
use inputs::lists::moves_with_rows;
use inputs::*;
use second::{Checked, Standing};
use std::collections::BTreeMap;

fn main() {
    for rule in RULES {
        let mut groups = Groups::default();
        small_pairs(&mut groups, rule);
        full_size_pairs(&mut groups, rule);
        longest_ways(&mut groups, rule);
        groups.print(&format!("permission lists under rule {rule}"));
        groups.assert_all_met();
        let lists = groups.compared.calls("check", rule);
        println!("{lists} lists");
        assert!(lists > 35_000);
        bad_moves_by_why(rule);
    }
    refused_calls();
}

/// 2,000 pairs: small ones, ones with many moves, and small ones at any bound.
fn small_pairs(groups: &mut Groups, rule: u64) {
    let mut random = seeded(20261118 + rule);
    for i in 0..2_000 {
        let mut pair = match i % 5 {
            0 => many_moves_pair(&mut random, rule),
            _ => small_pair(&mut random, rule),
        };
        if i % 50 == 1 {
            pair.bound = random.below(16);
        }
        lists_of(groups, &mut random, &Board::of(pair, SMALL));
    }
}

/// 16 by 16 states at bound 15.
fn full_size_pairs(groups: &mut Groups, rule: u64) {
    let mut random = seeded(20261120 + rule);
    let mut pairs = vec![all_kept(rule)];
    pairs.extend([false, true].map(|upward| long_way(15, upward, rule)));
    pairs.extend(chains(rule).into_iter().step_by(15));
    for letters in [8, 6, 5, 4, 4, 3, 1] {
        pairs.push(large_pair(&mut random, letters, rule));
    }
    for pair in pairs {
        lists_of(groups, &mut random, &Board::of(pair, FULL_SIZE));
    }
}

/// A way through all configurations, whole, cut somewhere, and with a bad move
/// somewhere.
fn longest_ways(groups: &mut Groups, rule: u64) {
    let mut random = seeded(20261124 + rule);
    for upward in [false, true] {
        let (pair, sets) = longest_way(upward, rule);
        let board = Board::of(pair, FULL_SIZE);
        groups.expect(LONGEST, &board, &sets, 0, 0);
        for _ in 0..10 {
            let place = random.below(4_096) as usize;
            let past = with(&sets, place, sets[place] | 1 << 63);
            groups.expect(LONGEST_BAD, &board, &past, 19, place);
            if place != board.finish {
                let cut = with(&sets, place, 0);
                groups.expect(LONGEST_CUT, &board, &cut, 20, board.lowest_met(&cut));
            }
        }
    }
}

/// What was compared: by size and group, how often each number was met.
#[derive(Default)]
struct Groups {
    compared: Compared,
    met: BTreeMap<(&'static str, &'static str), BTreeMap<u64, u64>>,
}

impl Groups {
    /// Compares the two answers for a list in bytes.
    fn check_bytes(&mut self, group: &'static str, board: &Board, list: &[u8]) -> Checked {
        let checked = self.compared.check(&board.pair, list);
        let numbers = self.met.entry((board.size, group)).or_default();
        *numbers.entry(checked.number).or_default() += 1;
        checked
    }

    /// The same for sets.
    fn check(&mut self, group: &'static str, board: &Board, sets: &[u64]) -> Checked {
        self.check_bytes(group, board, &list_bytes(sets))
    }

    /// The same, and the answer has to be this one.
    fn expect(
        &mut self,
        group: &'static str,
        board: &Board,
        sets: &[u64],
        number: u64,
        place: usize,
    ) {
        let checked = self.check(group, board, sets);
        assert!(
            (checked.number, checked.row) == (number, place as u64),
            "{group}: {checked:?} in place of {number} at place {place} on\n{}\nlist: {}",
            hex_pair(&board.pair),
            hex(&list_bytes(sets))
        );
    }

    fn print(&self, title: &str) {
        println!("{title}: all of these are equal, by size, group and number");
        for ((size, group), numbers) in &self.met {
            println!("  {size}, {group}: {numbers:?}");
        }
        self.compared.print(title);
    }

    fn count(&self, size: &'static str, group: &'static str, number: u64) -> u64 {
        let numbers = self.met.get(&(size, group));
        *numbers.and_then(|met| met.get(&number)).unwrap_or(&0)
    }

    /// No group is empty.
    fn assert_all_met(&self) {
        let wrong = wrong_lists(&[0], 1).into_iter();
        let wrong = wrong.map(|(group, _)| (group, 18, 50, 10));
        for (group, number, small, full_size) in wrong.chain(GROUPS.iter().copied()) {
            for (size, least) in [(SMALL, small), (FULL_SIZE, full_size)] {
                let met = self.count(size, group, number);
                assert!(met >= least, "{size}, {group}, {number}: {met}");
            }
        }
    }
}

const SMALL: &str = "small";
const FULL_SIZE: &str = "full size";

/// Each group but those of wrong bytes, a number, and how often that is met at
/// least in small pairs and in those of full size.
const GROUPS: &[(&str, u64, u64, u64)] = &[
    (OWN, 0, 600, 5),
    (ONE_MOVE, 0, 600, 5),
    (THINNED_WITH_WAYS, 0, 1_000, 5),
    (THINNED, 0, 300, 1),
    (THINNED, 20, 300, 1),
    (BREAKS, 19, 300, 5),
    (NO_ROWS, 19, 300, 5),
    (PAST_LETTERS, 19, 300, 5),
    (BAD_AT_FINISH, 19, 600, 5),
    (BAD_TWICE, 19, 300, 5),
    (BAD_NOT_MET, 0, 300, 5),
    (ALL_NOT_MET, 0, 300, 5),
    (WAY_TAKEN, 20, 300, 5),
    (LAST_STEPS_TAKEN, 20, 300, 5),
    (BOTH_AT_ONE, 19, 50, 1),
    (BAD_BELOW, 19, 50, 1),
    (NO_WAY_BELOW, 20, 50, 1),
    (HOLDING, 20, 300, 1),
    (NOTHING, 20, 300, 5),
    (NOTHING, 0, 50, 0),
    (FROM_FINISH, 20, 50, 1),
    (SAFE, 0, 100, 1),
    (SAFE, 20, 300, 1),
    (LONGEST, 0, 0, 2),
    (LONGEST_CUT, 20, 0, 10),
    (LONGEST_BAD, 19, 0, 10),
    (ANY, 0, 50, 0),
    (ANY, 19, 300, 5),
    (ANY, 20, 300, 0),
];

const OWN: &str = "our own sets";
const ONE_MOVE: &str = "one move a place, the lowest that leads nearer to the finish";
const THINNED: &str = "our own sets, thinned";
const THINNED_WITH_WAYS: &str = "our own sets, thinned, with a way left";
const BREAKS: &str = "a move that overflows or underflows at a met place";
const NO_ROWS: &str = "a move without rows on both sides at a met place";
const PAST_LETTERS: &str = "a letter past the last at a met place";
const BAD_AT_FINISH: &str = "a bad move at the finish";
const BAD_TWICE: &str = "bad moves at one or two met places";
const BAD_NOT_MET: &str = "a bad move where it is not met";
const ALL_NOT_MET: &str = "all moves where they are not met";
const WAY_TAKEN: &str = "the only way taken away";
const LAST_STEPS_TAKEN: &str = "the last steps taken away";
const BOTH_AT_ONE: &str = "both faults at the lowest place";
const BAD_BELOW: &str = "a bad move below a place without a way";
const NO_WAY_BELOW: &str = "a place without a way below a bad move";
const HOLDING: &str = "holding for ever";
const NOTHING: &str = "nothing permitted";
const FROM_FINISH: &str = "away from the finish and not back";
const SAFE: &str = "moves that are not bad";
const LONGEST: &str = "a way through all places";
const LONGEST_CUT: &str = "a way through all places, cut";
const LONGEST_BAD: &str = "a way through all places, with a bad move";
const ANY: &str = "any moves";

/// All groups of lists for a pair, those that are made from its own sets if it
/// is accepted.
fn lists_of(groups: &mut Groups, random: &mut Random, board: &Board) {
    let nothing = vec![0; board.count()];
    let number = if board.start == board.finish { 0 } else { 20 };
    let place = if number == 0 { 0 } else { board.start };
    groups.expect(NOTHING, board, &nothing, number, place);
    if board.holding(board.start) != 0 && board.start != board.finish {
        let held = board.sets(|place| board.holding(place));
        groups.expect(HOLDING, board, &held, 20, board.start);
    }
    for share in [100, 70, 40] {
        let safe = board.sets(|place| thinned(random, board.safe(place), share));
        groups.check(SAFE, board, &safe);
    }
    for _ in 0..4 {
        groups.check(ANY, board, &random_sets(random, &board.pair));
    }
    if let Some(own) = own_sets(groups, board) {
        let own = Own::of(board, own);
        own.accepted(groups, random);
        own.with_bad_moves(groups, random);
        own.with_bad_moves_elsewhere(groups, random);
        own.without_ways(groups, random);
        own.with_both(groups, random);
        own.leaving_the_finish(groups);
        if board.size == FULL_SIZE || random.chance(5) {
            own.wrong_bytes(groups);
        }
    }
}

/// What ask gives over what was built, if the pair is accepted.
fn own_sets(groups: &mut Groups, board: &Board) -> Option<Vec<u64>> {
    let pair = &board.pair;
    let (built, kept) = groups.compared.build(pair, &patterned(board.count()));
    if built.number != 0 {
        return None;
    }
    let rule = Rule::of(pair.rule).expect("a rule");
    let own = Permissions::allowed(&pair.writer, &pair.reader, pair.bound, rule, &kept);
    let own = own.expect("what was built can be asked");
    let sets = Vec::from_iter(own.sets().iter().map(|moves| moves.bits()));
    assert_eq!(own.bytes(), list_bytes(&sets));
    Some(sets)
}

/// One of the moves of a set, as a set, if there is any.
fn one_of(random: &mut Random, set: u64) -> Option<u64> {
    let bits = Vec::from_iter((0..64).filter(|bit| set >> bit & 1 == 1));
    (!bits.is_empty()).then(|| 1 << random.pick(&bits))
}

/// The sets with another one at a place.
fn with(sets: &[u64], place: usize, set: u64) -> Vec<u64> {
    let mut sets = sets.to_vec();
    sets[place] = set;
    sets
}

/// An accepted pair with its own sets and those of its moves that lead nearer.
struct Own<'a> {
    board: &'a Board,
    sets: Vec<u64>,
    nearer: Vec<u64>,
    /// One move a place, the lowest that leads nearer.
    single: Vec<u64>,
    /// The places that are met by our own sets, and the others.
    met: Vec<usize>,
    not_met: Vec<usize>,
    /// The places that are met by one move a place, without the finish.
    on_the_way: Vec<usize>,
}

impl Own<'_> {
    fn of(board: &Board, sets: Vec<u64>) -> Own<'_> {
        let nearer = board.nearer(&sets);
        let single = Vec::from_iter(nearer.iter().map(|set| set & set.wrapping_neg()));
        let standings = board.standings(&sets);
        let all = 0..board.count();
        let (met, not_met) = all.clone().partition(|place| standings[*place].reached);
        let standings = board.standings(&single);
        let on_the_way = all.filter(|place| *place != board.finish && standings[*place].reached);
        Own {
            on_the_way: on_the_way.collect(),
            board,
            sets,
            nearer,
            single,
            met,
            not_met,
        }
    }

    /// Our own sets, and parts of them in which every place has a way.
    fn accepted(&self, groups: &mut Groups, random: &mut Random) {
        let board = self.board;
        groups.expect(OWN, board, &self.sets, 0, 0);
        groups.expect(ONE_MOVE, board, &self.single, 0, 0);
        for share in [10, 50, 90] {
            let part = board.sets(|place| {
                let way = one_of(random, self.nearer[place]).unwrap_or(0);
                way | thinned(random, self.sets[place], share)
            });
            groups.expect(THINNED_WITH_WAYS, board, &part, 0, 0);
            let part = board.sets(|place| thinned(random, self.sets[place], share));
            groups.check(THINNED, board, &part);
        }
    }

    /// The sets with these moves added at a place.
    fn added(&self, place: usize, moves: u64) -> Vec<u64> {
        with(&self.sets, place, self.sets[place] | moves)
    }

    fn bad(&self, random: &mut Random, place: usize) -> Option<u64> {
        one_of(random, !self.board.safe(place))
    }

    fn with_bad_moves(&self, groups: &mut Groups, random: &mut Random) {
        let board = self.board;
        let past = moves_past_letters(&board.pair);
        let with_rows = moves_with_rows(&board.pair);
        self.bad_at_met(groups, random, BREAKS, |place| with_rows[place]);
        self.bad_at_met(groups, random, NO_ROWS, |place| !with_rows[place] & !past);
        self.bad_at_met(groups, random, PAST_LETTERS, |_| past);
        if let Some(bad) = self.bad(random, board.finish) {
            let sets = self.added(board.finish, bad);
            groups.expect(BAD_AT_FINISH, board, &sets, 19, board.finish);
        }
        let (one, two) = (random.pick(&self.met), random.pick(&self.met));
        if let (Some(bad), Some(more)) = (self.bad(random, one), self.bad(random, two)) {
            let mut sets = self.added(one, bad);
            sets[two] |= more;
            groups.expect(BAD_TWICE, board, &sets, 19, one.min(two));
        }
    }

    /// One bad move of a kind at a met place, if any has one.
    fn bad_at_met(
        &self,
        groups: &mut Groups,
        random: &mut Random,
        group: &'static str,
        kind: impl Fn(usize) -> u64,
    ) {
        let bad = |place: usize| kind(place) & !self.board.safe(place);
        let places = self.met.iter().copied().filter(|place| bad(*place) != 0);
        let places = Vec::from_iter(places);
        if !places.is_empty() {
            let place = random.pick(&places);
            let bad = one_of(random, bad(place)).unwrap_or(0);
            groups.expect(group, self.board, &self.added(place, bad), 19, place);
        }
    }

    fn with_bad_moves_elsewhere(&self, groups: &mut Groups, random: &mut Random) {
        if self.not_met.is_empty() {
            return;
        }
        let place = random.pick(&self.not_met);
        if let Some(bad) = self.bad(random, place) {
            groups.expect(BAD_NOT_MET, self.board, &self.added(place, bad), 0, 0);
        }
        let mut sets = self.sets.clone();
        self.not_met
            .iter()
            .for_each(|place| sets[*place] = u64::MAX);
        groups.expect(ALL_NOT_MET, self.board, &sets, 0, 0);
    }

    fn without_ways(&self, groups: &mut Groups, random: &mut Random) {
        let board = self.board;
        if board.start == board.finish {
            return;
        }
        let place = random.pick(&self.on_the_way);
        let cut = with(&self.single, place, board.holding(place));
        let lowest = self.lowest_without_way(&cut);
        groups.expect(WAY_TAKEN, board, &cut, 20, lowest);
        assert!(lowest <= place);

        let leads = |to: &[usize]| to.contains(&board.finish);
        let cut = board.sets(|place| self.sets[place] & !board.set(place, leads));
        groups.expect(LAST_STEPS_TAKEN, board, &cut, 20, board.lowest_met(&cut));
    }

    fn lowest_without_way(&self, sets: &[u64]) -> usize {
        let standings = self.board.standings(sets);
        let without = standings.iter().position(|at| at.reached && !at.finishes);
        without.expect("the way was taken away")
    }

    /// No way from one place, and a bad move there or at another that is still
    /// met.
    fn with_both(&self, groups: &mut Groups, random: &mut Random) {
        let board = self.board;
        if self.on_the_way.is_empty() {
            return;
        }
        for same in [true, false, false, false] {
            let cut = random.pick(&self.on_the_way);
            let mut sets = with(&self.single, cut, 0);
            let standings = board.standings(&sets);
            let met = Vec::from_iter((0..board.count()).filter(|at| standings[*at].reached));
            let at = if same { cut } else { random.pick(&met) };
            if let Some(bad) = self.bad(random, at) {
                sets[at] |= bad;
                let group = both_faults(&board.standings(&sets));
                let checked = groups.check(group, board, &sets);
                assert_eq!(checked.number == 20, group == NO_WAY_BELOW);
            }
        }
    }

    /// A move at the finish that leads where nothing is permitted.
    fn leaving_the_finish(&self, groups: &mut Groups) {
        let (board, finish) = (self.board, self.board.finish);
        for (bit, to) in &board.moves[finish] {
            let mut sets = with(&self.single, finish, 1 << bit);
            for landing in to.iter().filter(|landing| **landing != finish) {
                sets[*landing] = 0;
            }
            if to.iter().any(|landing| *landing != finish) {
                let checked = groups.check(FROM_FINISH, board, &sets);
                assert_eq!(checked.number, 20);
            }
        }
    }

    /// 18, whatever is permitted.
    fn wrong_bytes(&self, groups: &mut Groups) {
        let levels = self.board.pair.bound as usize + 1;
        for sets in [&self.sets, &vec![u64::MAX; self.sets.len()]] {
            for (group, list) in wrong_lists(sets, levels) {
                let checked = groups.check_bytes(group, self.board, &list);
                assert_eq!(checked.packed(), 18, "{group}");
            }
        }
    }
}

/// Which of both faults the lowest faulty place has.
fn both_faults(standings: &[Standing]) -> &'static str {
    let mut reached = standings.iter().filter(|at| at.reached);
    let lowest = reached.find(|at| at.permits_bad || !at.finishes);
    let lowest = lowest.expect("there are faults");
    match (lowest.permits_bad, lowest.finishes) {
        (true, false) => BOTH_AT_ONE,
        (true, true) => BAD_BELOW,
        (false, _) => NO_WAY_BELOW,
    }
}

/// What why says of a move, in short: a reason, or the number of a refusal.
type Said = Result<Reason, u8>;

/// At the place of a 19 why tells the bad moves from the others, over kept
/// bytes that are all 1.
fn bad_moves_by_why(rule: u64) {
    let mut random = seeded(20261126 + rule);
    let mut said = Vec::new();
    let mut lists = 0;
    for i in 0..600 {
        let pair = match i % 2 {
            0 => many_moves_pair(&mut random, rule),
            _ => small_pair(&mut random, rule),
        };
        let board = Board::of(pair, SMALL);
        let sets = random_sets(&mut random, &board.pair);
        let of_list = said_of_bad_place(&board, &sets);
        lists += u64::from(!of_list.is_empty());
        said.extend(of_list);
    }
    println!("bad moves by why: {lists} lists, {} moves", said.len());
    assert!(lists >= 200);
    for expected in [
        Ok(Reason::Allowed),
        Ok(Reason::NoWriterRow),
        Ok(Reason::NoReaderRow),
        Ok(Reason::Overflows),
        Ok(Reason::Underflows),
        Err(14),
    ] {
        let met = said.iter().filter(|said| **said == expected).count();
        println!("  {expected:?}: {met}");
        assert!(met >= 50, "{expected:?}: {met}");
    }
}

/// What why says of each move that is permitted at the place of a 19; nothing
/// if the list has none.
fn said_of_bad_place(board: &Board, sets: &[u64]) -> Vec<Said> {
    let (writer, reader, bound) = (&board.pair.writer, &board.pair.reader, board.pair.bound);
    let rule = Rule::of(board.pair.rule).expect("a rule");
    let Err(Refusal {
        number: 19,
        row,
        at: Some(at),
        ..
    }) = bridge::check(writer, reader, bound, rule, &list_bytes(sets))
    else {
        return Vec::new();
    };
    let all = vec![1; board.count()];
    let permitted = sets[usize::from(row)];
    let (mut bad, mut said) = (0, Vec::new());
    for (x, y) in Moves::from_bits(permitted).iter() {
        let xy = (x.into(), y.into());
        let why = bridge::why(writer, reader, bound, rule, &all, at, xy);
        let why = why.map_err(|refusal| refusal.number);
        assert!(why.is_ok() || why == Err(14));
        if why != Ok(Reason::Allowed) {
            bad |= 1 << (8 * x + y);
        }
        said.push(why);
    }
    let expected = permitted & !board.safe(usize::from(row));
    assert!(
        bad == expected && bad != 0,
        "bad at place {row}: {bad:#x} by why, in place of {expected:#x}, on\n{}\nlist: {}",
        hex_pair(&board.pair),
        hex(&list_bytes(sets))
    );
    said
}

/// Damaged tables, bounds above 15 and numbers that are no rule: these come
/// before anything is said of the list.
fn refused_calls() {
    let mut random = seeded(20261122);
    let mut compared = Compared::new();
    for _ in 0..5_000 {
        let pair = damaged_pair(&mut random);
        let list = list_for(&mut random, &pair);
        compared.check(&pair, &list);
    }
    for rule in NO_RULES {
        for _ in 0..100 {
            let mut pair = small_pair(&mut random, rule);
            let list = list_for(&mut random, &pair);
            assert_eq!(compared.check(&pair, &list).packed(), 17);
            pair.bound = random.pick(&[16, 257, u64::MAX]);
            for rule in [rule, 0, 1] {
                assert_eq!(compared.check(&pair.under(rule), &list).packed(), 9);
            }
        }
    }
    let mut pairs = Vec::from_iter(limits().into_iter().map(|call| call.pair));
    pairs.dedup();
    for pair in pairs {
        let list = list_for(&mut random, &pair);
        compared.check(&pair, &list);
    }
    compared.print("lists with damaged tables, bounds, rules and at the limits");
    for number in 1..=8 {
        for side in 1..=2 {
            assert!(compared.met("check", number, side) >= 20);
        }
    }
    for number in [9, 17, 18, 19, 20] {
        assert!(compared.met("check", number, 0) >= 20, "{number}");
    }
}

/// A list for a pair that need not be good: as long as the numbers of states
/// say, or wrong.
fn list_for(random: &mut Random, pair: &Pair) -> Vec<u8> {
    let states = |table: &[u8]| usize::from(*table.get(4).unwrap_or(&1)).clamp(1, 16);
    let levels = pair.bound.min(15) as usize + 1;
    let n = states(&pair.writer) * states(&pair.reader) * levels;
    let set = random.pick(&[0, 0, 1, 0x0101_0101, u64::MAX]);
    let sets = vec![set; n];
    if random.chance(75) {
        return list_bytes(&sets);
    }
    let mut wrong = wrong_lists(&sets, levels);
    let which = random.below(wrong.len() as u64) as usize;
    wrong.swap_remove(which).1
}
