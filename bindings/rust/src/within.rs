//! Calls with a time limit of their own.

use crate::transaction::Transaction;
use crate::tree::Shared;
use std::ops::Deref;
use std::time::Duration;

/// The calls of a transaction, with a time limit of their own ([`Transaction::within`]). Steps that
/// are begun by it have that limit too.
#[derive(Debug)]
pub struct Within<'t> {
    /// The same transaction, which is live as long as that.
    calls: Transaction<Shared>,
    of: &'t Transaction<Shared>,
}

impl Transaction<Shared> {
    /// Returns the calls of this transaction, with another time limit.
    ///
    /// ```
    /// # use nuzolged::{Result, Shared, Tree};
    /// # use std::time::Duration;
    /// # fn main() -> Result<()> {
    /// let tree = Shared::new(Tree::new()?, Duration::from_secs(60));
    /// let job = tree.begin()?;
    /// job.within(Duration::from_millis(500)).create_dir("/out")?;
    /// job.commit()
    /// # }
    /// ```
    pub fn within(&self, limit: Duration) -> Within<'_> {
        let calls = self.alike(limit);
        Within { calls, of: self }
    }
}

impl Deref for Within<'_> {
    type Target = Transaction<Shared>;

    fn deref(&self) -> &Transaction<Shared> {
        &self.calls
    }
}

impl Drop for Within<'_> {
    fn drop(&mut self) {
        self.of.left().append(&mut self.calls.left());
    }
}
