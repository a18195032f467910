//! The list of a pair's own sets, for the programs that measure.

use bridge::{build, Permissions, Rule};
use inputs::Pair;

/// The moves that the proved ask gives over what the proved build keeps, as a
/// list in bytes, if the pair is accepted.
pub fn own_list(pair: &Pair) -> Option<Vec<u8>> {
    let (writer, reader, bound) = (&pair.writer, &pair.reader, pair.bound);
    let rule = Rule::of(pair.rule)?;
    let mut kept = [0; 4096];
    build(writer, reader, bound, rule, &mut kept).ok()?;
    let own = Permissions::allowed(writer, reader, bound, rule, &kept).ok()?;
    Some(own.bytes())
}
