//! Trees with a rule and limits of their own.

use crate::error::Result;
use crate::sys::{Limits, GREATEST};
use crate::tree::{Rule, Tree};

/// Makes a tree with a rule and limits of its own; [`Tree::builder`] makes the builder. A limit
/// that is not set is the greatest, so only lack of memory ends a job. The limits of a tree stay,
/// even through checkpoints.
#[derive(Clone, Copy, Debug, PartialEq, Eq)]
#[must_use = "a tree is made by `build`"]
pub struct Builder {
    rule: Rule,
    limits: Limits,
}

impl Builder {
    pub(crate) fn new() -> Builder {
        Builder {
            rule: Rule::default(),
            limits: GREATEST,
        }
    }

    /// Sets which locks block a call.
    pub fn rule(mut self, rule: Rule) -> Builder {
        self.rule = rule;
        self
    }

    /// Sets how many bytes a file may have, at most 2^47. More is the error EFBIG.
    pub fn file_size(mut self, most: u64) -> Builder {
        self.limits.file_size = most;
        self
    }

    /// Sets how many names a file may have, at most 2^32. One more is the error EMLINK.
    pub fn links(mut self, most: u64) -> Builder {
        self.limits.links = most;
        self
    }

    /// Sets how deep a transaction may be, at most 4,096. One of the tree has depth 1. A step below
    /// the deepest is refused as [`Deep`](crate::Refusal::Deep).
    pub fn depth(mut self, most: u64) -> Builder {
        self.limits.depth = most;
        self
    }

    /// Sets how many transactions may begin before a checkpoint, at most 2^62. One more is refused
    /// as [`Full`](crate::Refusal::Full).
    pub fn transactions(mut self, most: u64) -> Builder {
        self.limits.transactions = most;
        self
    }

    /// Sets how many calls may be granted before a checkpoint, at most 2^62. One more is refused as
    /// [`Full`](crate::Refusal::Full).
    pub fn calls(mut self, most: u64) -> Builder {
        self.limits.calls = most;
        self
    }

    /// Makes a tree that has only the root.
    ///
    /// # Errors
    ///
    /// Refused as [`BadLimits`](crate::Refusal::BadLimits) if a limit is above the greatest, or as
    /// `Memory`.
    pub fn build(self) -> Result<Tree> {
        Tree::open(self.rule, self.limits)
    }
}
