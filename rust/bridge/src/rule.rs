//! The rule of the buffer.

/// When the buffer between the two sides takes an item and when it gives one.
///
/// The rules agree on a cycle in which only one side moves an item: a write
/// needs a free place, a read needs an item that is held. They differ where
/// both sides move one in the same cycle. Every call names its rule, and none
/// is taken unsaid: a bridge built for flow-through may lose an item on a
/// registered buffer.
///
/// ```
/// use bridge::{build, Rule};
///
/// // The writer's letter 1 puts an item, or begins a burst of two that the
/// // bridge cannot stop; the reader takes one whenever it is told to.
/// let writer = [
///     1, 0, 31, 1, 3, 0, 1, 2, 5, // three states, start 0, finish 1
///     0, 0, 0, 0, 0, //
///     0, 1, 1, 1, 1, //
///     0, 1, 2, 1, 2, // the burst: a second item comes in state 2
///     1, 0, 0, 0, 1, //
///     2, 0, 3, 1, 1,
/// ];
/// let reader = [1, 0, 16, 2, 1, 0, 0, 2, 2, 0, 0, 0, 0, 0, 0, 1, 1, 1, 0];
/// let mut kept = [0; 6];
///
/// // Room for one item, and its place is free only in the cycle after the
/// // read: the burst's second item has nowhere to go.
/// let refusal = build(&writer, &reader, 1, Rule::Registered, &mut kept).unwrap_err();
/// assert_eq!((refusal.number, refusal.rounds), (11, 3));
///
/// // The first item leaves in the cycle in which the second comes.
/// let built = build(&writer, &reader, 1, Rule::FlowThrough, &mut kept)?;
/// assert_eq!((built.kept, built.rounds, kept), (6, 1, [1; 6]));
/// # Ok::<(), bridge::Refusal>(())
/// ```
#[derive(Clone, Copy, Debug, PartialEq, Eq, Hash)]
pub enum Rule {
    /// Full and empty are registered: both are what they were at the start of
    /// the cycle. A full buffer takes nothing, even while it gives one; an
    /// item that is written can be read from the next cycle on. No signal runs
    /// through the buffer from one side to the other.
    Registered,
    /// A cycle counts as a whole: what matters is that the level after it lies
    /// in 0 to the bound. A full buffer takes one while it gives one, and an
    /// empty one hands on an item in the cycle in which it is written. With
    /// bound 0 the buffer is a wire.
    FlowThrough,
}

impl Rule {
    /// The rule of a number, 0 or 1.
    pub fn of(number: u64) -> Option<Rule> {
        let mut all = [Rule::Registered, Rule::FlowThrough].into_iter();
        all.find(|rule| rule.number() == number)
    }

    /// The rule's number, as the entry points take it: 0 registered, 1
    /// flow-through.
    pub fn number(self) -> u64 {
        match self {
            Rule::Registered => 0,
            Rule::FlowThrough => 1,
        }
    }
}
