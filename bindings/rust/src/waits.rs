//! Cycles of transactions that wait for each other.

use crate::sys::Handle;

/// Returns the transactions of a cycle of waits that begins with this one: each waits for the next,
/// and the last for the first. None if it is part of none, or if there is no memory to find out.
pub(crate) fn cycle(handle: &mut Handle, txn: u64) -> Option<Vec<u64>> {
    let mut members = vec![0; 16];
    let mut count = handle.cycle_of(txn, &mut members).number as usize;
    if count > members.len() {
        members.resize(count, 0);
        count = handle.cycle_of(txn, &mut members).number as usize;
    }
    members.truncate(count);
    (count > 0).then_some(members)
}
