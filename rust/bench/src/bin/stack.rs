//! How much stack the entry points need: each is called on a stack of its own
//! that is painted before, and what is no longer paint afterwards was used.
//! `cargo run --profile fast --offline -p bench --bin stack`; x86-64 only.

use bench::own::own_list;
use bridge::{packed, Configuration, Permissions};
use inputs::{all_kept, chains, damaged_pair, large_pair, limits, list_bytes, long_way};
use inputs::{many_rounds, random_sets, small_pair, Pair, Random, RULES};
use std::arch::asm;
use std::cell::RefCell;

const PAINT: u8 = 0xA5;
const SIZE: usize = 64 * 1024;

/// What a call may need.
const LIMIT: usize = 6_144;

#[repr(align(64))]
struct Stack([u8; SIZE]);

/// What the next call is to do.
struct Call {
    pair: Pair,
    /// The buffer, the kept bytes or the list.
    lent: Vec<u8>,
    what: What,
}

#[derive(Clone, Copy)]
enum What {
    Nothing,
    Build,
    Ask,
    AskSet,
    Why,
    Check,
}

thread_local! {
    static CALL: RefCell<Option<Call>> = const { RefCell::new(None) };
}

/// Makes the call; what this function itself needs is measured by `Nothing`.
extern "C" fn make() {
    CALL.with_borrow_mut(|call| {
        let call = call.as_mut().expect("a call is set");
        let (writer, reader) = (&call.pair.writer[..], &call.pair.reader[..]);
        let (bound, rule) = (call.pair.bound, call.pair.rule);
        let at = Configuration {
            writer: 0,
            reader: 0,
            level: 0,
        };
        match call.what {
            What::Nothing => 0,
            What::Build => packed::build(writer, reader, bound, rule, &mut call.lent),
            What::Ask => packed::ask(writer, reader, bound, rule, &call.lent, at),
            What::AskSet => packed::ask_set(writer, reader, bound, rule, &call.lent, at),
            What::Why => packed::why(writer, reader, bound, rule, &call.lent, at, (0, 0)),
            What::Check => packed::check(writer, reader, bound, rule, &call.lent),
        };
    });
}

/// Bytes of stack that the call used.
fn used(stack: &mut Stack, pair: &Pair, lent: &[u8], what: What) -> usize {
    CALL.with_borrow_mut(|call| {
        *call = Some(Call {
            pair: pair.clone(),
            lent: lent.to_vec(),
            what,
        })
    });
    stack.0.fill(PAINT);
    let top = stack.0.as_mut_ptr_range().end;
    // SAFETY: the stack pointer is set to the end of an aligned array of 64
    // KiB that nothing else uses, one function that does not unwind is called
    // there, and the pointer is put back.
    unsafe {
        asm!(
            "mov r12, rsp",
            "mov rsp, {top}",
            "call {make}",
            "mov rsp, r12",
            top = in(reg) top,
            make = sym make,
            out("r12") _,
            clobber_abi("C"),
        );
    }
    SIZE - stack
        .0
        .iter()
        .position(|byte| *byte != PAINT)
        .unwrap_or(SIZE)
}

/// The pairs that are measured: those with good tables under both rules.
fn pairs() -> Vec<Pair> {
    let mut random = Random::new(4);
    let mut pairs = Vec::new();
    for rule in RULES {
        let many = many_rounds(rule).into_iter().map(|(pair, _)| pair);
        pairs.extend(chains(rule));
        pairs.extend(many.filter(|pair| pair.count() < 500));
        pairs.extend((0..20).map(|_| large_pair(&mut random, 4, rule)));
        pairs.extend([false, true].map(|upward| long_way(15, upward, rule)));
        pairs.push(all_kept(rule));
        pairs.extend((0..1000).map(|_| small_pair(&mut random, rule)));
    }
    pairs.extend((0..1000).map(|_| damaged_pair(&mut random)));
    pairs.extend(limits().into_iter().map(|call| call.pair));
    pairs
}

/// The lists that are measured for a pair: those of its own sets, of all moves
/// everywhere, of any moves, and wrong ones.
fn lists(random: &mut Random, pair: &Pair) -> Vec<Vec<u8>> {
    let mut lists = vec![Vec::new(), list_bytes(&[u64::MAX; 4096])];
    if Permissions::none(&pair.writer, &pair.reader, pair.bound).is_ok() {
        lists.push(list_bytes(&vec![u64::MAX; pair.count()]));
        lists.push(list_bytes(&random_sets(random, pair)));
        lists.extend(own_list(pair));
    }
    lists
}

/// Prints the most that a call used, less what calling it takes.
fn report(name: &str, uses: &[usize], of: &str, own: usize) {
    let most = *uses.iter().max().expect("there are calls");
    println!(
        "{name}: at most {} bytes of stack over {} {of} ({most} with the caller's {own})",
        most - own,
        uses.len()
    );
    assert!(most - own <= LIMIT, "more than {LIMIT} bytes");
}

fn main() {
    let pairs = pairs();
    let mut stack = Box::new(Stack([0; SIZE]));
    let kept = vec![1; 4096];
    let own = used(&mut stack, &pairs[0], &kept, What::Nothing);
    for (name, what) in [
        ("bridge_build", What::Build),
        ("bridge_ask", What::Ask),
        ("bridge_ask_set", What::AskSet),
        ("bridge_why", What::Why),
    ] {
        let uses = pairs.iter().map(|pair| used(&mut stack, pair, &kept, what));
        report(name, &Vec::from_iter(uses), "pairs", own);
    }
    let mut random = Random::new(5);
    let mut uses = Vec::new();
    for pair in &pairs {
        for list in lists(&mut random, pair) {
            uses.push(used(&mut stack, pair, &list, What::Check));
        }
    }
    report("bridge_check", &uses, "lists", own);
}
