//! Trees, for one thread and for many.

use crate::builder::Builder;
use crate::error::{Error, Result};
use crate::sys::{self, Answer, Handle, Limits};
use crate::transaction::Transaction;
use crate::waits;
use std::cell::RefCell;
use std::sync::atomic::{AtomicBool, AtomicU32, Ordering::Relaxed};
use std::sync::{Arc, Condvar, Mutex, MutexGuard, PoisonError};
use std::time::{Duration, Instant};

/// How long a thread sleeps at most before its call is made again.
const MOST_PAUSE: Duration = Duration::from_millis(50);

/// How much of that each waiting call takes at least: with more than ten, it is longer.
const PAUSE_EACH: Duration = Duration::from_millis(5);

/// With how many waiting calls they wait in turn. A turn takes time for each pair of them.
const MOST_TURNS: u32 = 32;

/// The rule that says which locks block a call.
#[derive(Clone, Copy, Debug, Default, PartialEq, Eq)]
pub enum Rule {
    /// Those of transactions that are neither the caller nor around it.
    #[default]
    #[doc(alias = "NUZ_RELAXED")]
    Relaxed,
    /// Also those of transactions around the caller, if they hold them for calls of their own.
    Moss,
}

/// A tree, which has only the root at first. It may go to another thread, but only one thread at a
/// time uses it; many use a [`Shared`].
#[derive(Debug)]
pub struct Tree {
    handle: RefCell<Handle>,
}

impl Tree {
    /// Makes a tree with [`Rule::Relaxed`] and the greatest limits.
    ///
    /// # Errors
    ///
    /// Refused as `Memory`.
    pub fn new() -> Result<Tree> {
        Tree::with_rule(Rule::default())
    }

    /// Makes a tree with a rule and the greatest limits.
    ///
    /// # Errors
    ///
    /// Refused as `Memory`.
    pub fn with_rule(rule: Rule) -> Result<Tree> {
        Tree::builder().rule(rule).build()
    }

    /// Returns a builder of a tree with a rule and limits of its own. A limit that is not set is
    /// the greatest.
    ///
    /// ```
    /// # use nuzolged::{Error, Refusal, Tree};
    /// let tree = Tree::builder().file_size(1 << 20).depth(1).build()?;
    /// let job = tree.begin()?;
    /// assert_eq!(job.begin().unwrap_err(), Error::Refused(Refusal::Deep));
    /// # Ok::<(), Error>(())
    /// ```
    pub fn builder() -> Builder {
        Builder::new()
    }

    pub(crate) fn open(rule: Rule, limits: Limits) -> Result<Tree> {
        let handle = Handle::open(rule as u32, &limits).map_err(Error::of)?;
        Ok(Tree {
            handle: RefCell::new(handle),
        })
    }

    /// Begins a transaction.
    ///
    /// # Errors
    ///
    /// Refused as `Full` if the limit on transactions since the last checkpoint is reached.
    pub fn begin(&self) -> Result<Transaction<&Tree>> {
        let number = self.once(|handle| answered(handle, Handle::begin))?.number;
        Ok(Transaction::of(self, number))
    }

    /// Aborts the transaction of this number, and returns how many calls were undone. Nobody needs
    /// to have the transaction any more, as after `std::mem::forget`.
    ///
    /// # Errors
    ///
    /// Refused as `NoTxn` or `Ended`.
    pub fn abort(&self, number: u64) -> Result<u64> {
        let aborted = self.end(|handle| answered(handle, |handle| handle.abort(number)))?;
        Ok(aborted.number)
    }

    /// Makes the present tree the beginning, and forgets the transactions. Transactions and calls
    /// are counted from here on. This takes no memory.
    ///
    /// # Errors
    ///
    /// Refused as `Live` if a transaction was left live, as by `std::mem::forget`.
    pub fn checkpoint(&mut self) -> Result<()> {
        answered(self.handle.get_mut(), Handle::checkpoint)?;
        Ok(())
    }

    /// Carries out one line of a script, and returns the text of the reply. The line may also be a
    /// report, such as `tree`, `locks` or `waits`. A line may end a transaction of which somebody
    /// has a [`Transaction`]: its requests are then refused.
    ///
    /// # Errors
    ///
    /// `Invalid` if it is not a line of a script without names, `put` and `get`.
    pub fn request(&self, line: &str) -> Result<String> {
        self.once(|handle| reply_to(handle, line))
    }
}

/// A tree that threads share: each clone is of the same tree.
///
/// A blocked call is made again whenever a transaction has ended, and several times a second (a
/// call of a transaction around it may unblock it), until a time limit is over. Then the call is
/// cancelled, and returns [`Error::Waits`]. If it would wait forever, since transactions wait for
/// each other, it returns [`Error::Deadlock`] at once: drop the transaction that gets this, and
/// begin again.
///
/// Calls wait in turn. A call that no lock blocks also waits for each older waiting call that
/// conflicts with it, so one reader after another can't pass a writer. It never waits in turn for a
/// transaction above or below its own, or for one that waits for its own: so this closes no
/// deadlock. While more than 32 calls wait, and after [`without_turns`](Shared::without_turns), a
/// call may pass older ones.
#[derive(Clone, Debug)]
pub struct Shared {
    inner: Arc<Inner>,
    limit: Duration,
}

#[derive(Debug)]
struct Inner {
    handle: Mutex<Handle>,
    /// Told whenever a transaction has ended, or waits no longer.
    ended: Condvar,
    /// How many calls wait. (It is changed only under the lock of the handle, as is the next.)
    waiting: AtomicU32,
    /// Whether calls are to wait in turn.
    is_fair: AtomicBool,
}

impl Shared {
    /// Shares a tree. A call waits as long as `limit`, and not longer.
    pub fn new(tree: Tree, limit: Duration) -> Shared {
        let mut handle = tree.handle.into_inner();
        handle.set_fair(true);
        let inner = Inner {
            handle: Mutex::new(handle),
            ended: Condvar::new(),
            waiting: AtomicU32::new(0),
            is_fair: AtomicBool::new(true),
        };
        Shared {
            inner: Arc::new(inner),
            limit,
        }
    }

    /// Returns the same tree, whose calls no longer wait in turn, neither by this `Shared` nor by a
    /// clone. Then a call waits only for locks, and readers may pass a writer again and again.
    ///
    /// ```
    /// # use nuzolged::{Error, Shared, Tree};
    /// # use std::time::Duration;
    /// let tree = Shared::new(Tree::new()?, Duration::from_secs(60)).without_turns();
    /// # Ok::<(), Error>(())
    /// ```
    #[doc(alias = "nuz_tree_fair")]
    #[must_use]
    pub fn without_turns(self) -> Shared {
        let mut handle = self.lock();
        self.inner.is_fair.store(false, Relaxed);
        self.set_turns(&mut handle);
        drop(handle);
        self
    }

    /// Returns the same tree with another limit, for the transactions that are begun by it.
    #[must_use]
    pub fn with_limit(&self, limit: Duration) -> Shared {
        Shared {
            inner: Arc::clone(&self.inner),
            limit,
        }
    }

    /// Begins a transaction.
    ///
    /// # Errors
    ///
    /// Refused as `Full` if the limit on transactions since the last checkpoint is reached.
    pub fn begin(&self) -> Result<Transaction<Shared>> {
        let number = self.once(|handle| answered(handle, Handle::begin))?.number;
        Ok(Transaction::of(self.clone(), number))
    }

    /// Aborts the transaction of this number, which may be another thread's, and returns how many
    /// calls were undone.
    ///
    /// # Errors
    ///
    /// Refused as `NoTxn` or `Ended`.
    pub fn abort(&self, number: u64) -> Result<u64> {
        let aborted = self.end(|handle| answered(handle, |handle| handle.abort(number)))?;
        Ok(aborted.number)
    }

    /// Makes the present tree the beginning, and forgets the transactions. Transactions and calls
    /// are counted from here on. This takes no memory.
    ///
    /// # Errors
    ///
    /// Refused as `Live` while a transaction is live.
    pub fn checkpoint(&self) -> Result<()> {
        self.once(|handle| answered(handle, Handle::checkpoint))?;
        Ok(())
    }

    /// Carries out one line of a script without waiting, and returns the text of the reply. The
    /// line may also be a report, such as `tree`, `locks` or `waits`. A line may end a transaction
    /// of which somebody has a [`Transaction`]: its requests are then refused. A call that has to
    /// wait is kept until a line drops it, and others may wait for its turn.
    ///
    /// # Errors
    ///
    /// `Invalid` if it is not a line of a script without names, `put` and `get`.
    pub fn request(&self, line: &str) -> Result<String> {
        self.end(|handle| reply_to(handle, line))
    }

    pub(crate) fn set_limit(&mut self, limit: Duration) {
        self.limit = limit;
    }

    /// The handle, for as long as the answer lives. (A thread that panics while it has the handle
    /// leaves it as the library did.)
    fn lock(&self) -> MutexGuard<'_, Handle> {
        self.inner
            .handle
            .lock()
            .unwrap_or_else(PoisonError::into_inner)
    }

    /// Forgets the call that a transaction waits for, and for whose turn others may wait.
    fn forget(&self, handle: &mut Handle, txn: u64) {
        handle.cancel(txn);
        self.inner.ended.notify_all();
    }

    /// Lets calls wait in turn, if they are to and not too many wait.
    fn set_turns(&self, handle: &mut Handle) {
        let waiting = self.inner.waiting.load(Relaxed);
        handle.set_fair(self.inner.is_fair.load(Relaxed) && waiting <= MOST_TURNS);
    }

    /// Makes a blocked call again, until it is not blocked, the time is over, or it would wait for
    /// ever.
    fn wait_on<'h, T>(
        &self,
        mut handle: MutexGuard<'h, Handle>,
        txn: u64,
        blocked: Error,
        mut request: impl FnMut(&mut Handle) -> Result<T>,
    ) -> (MutexGuard<'h, Handle>, Result<T>) {
        let begun = Instant::now();
        let mut answer = Err(blocked);
        while matches!(answer, Err(Error::Waits(_))) {
            let left = self.limit.saturating_sub(begun.elapsed());
            let cycle = waits::cycle(&mut handle, txn);
            if left.is_zero() || cycle.is_some() {
                self.forget(&mut handle, txn);
                return (
                    handle,
                    cycle.map_or(answer, |cycle| Err(Error::Deadlock(cycle))),
                );
            }
            let pause = MOST_PAUSE.max(PAUSE_EACH * self.inner.waiting.load(Relaxed));
            handle = self.sleep(handle, left.min(pause));
            answer = request(&mut handle);
        }
        if matches!(answer, Err(Error::Refused(_))) {
            self.forget(&mut handle, txn);
        }
        (handle, answer)
    }

    /// Sleeps until a transaction has ended or waits no longer, or the time is over, without the
    /// handle.
    fn sleep<'h>(&self, handle: MutexGuard<'h, Handle>, time: Duration) -> MutexGuard<'h, Handle> {
        let woken = self.inner.ended.wait_timeout(handle, time);
        woken.unwrap_or_else(PoisonError::into_inner).0
    }
}

/// How a transaction reaches its tree: as a `&Tree`, of one thread, or as a [`Shared`], of many.
pub trait Reach: sealed::Reach {}

impl Reach for &Tree {}

impl Reach for Shared {}

pub(crate) mod sealed {
    use super::{Handle, Result};

    pub trait Reach {
        /// Makes a request of a transaction. If others may end meanwhile, a blocked one is made
        /// again.
        fn reach<T>(&self, txn: u64, request: impl FnMut(&mut Handle) -> Result<T>) -> Result<T>;

        /// Makes a request once.
        fn once<T>(&self, request: impl FnOnce(&mut Handle) -> Result<T>) -> Result<T>;

        /// Makes a request by which a transaction may end.
        fn end<T>(&self, request: impl FnOnce(&mut Handle) -> Result<T>) -> Result<T>;
    }
}

use sealed::Reach as _;

impl sealed::Reach for &Tree {
    fn reach<T>(&self, _: u64, request: impl FnMut(&mut Handle) -> Result<T>) -> Result<T> {
        self.once(request)
    }

    fn once<T>(&self, request: impl FnOnce(&mut Handle) -> Result<T>) -> Result<T> {
        request(&mut self.handle.borrow_mut())
    }

    fn end<T>(&self, request: impl FnOnce(&mut Handle) -> Result<T>) -> Result<T> {
        self.once(request)
    }
}

impl sealed::Reach for Shared {
    fn reach<T>(&self, txn: u64, mut request: impl FnMut(&mut Handle) -> Result<T>) -> Result<T> {
        let mut handle = self.lock();
        match request(&mut handle) {
            Err(blocked @ Error::Waits(_)) => {
                self.inner.waiting.fetch_add(1, Relaxed);
                self.set_turns(&mut handle);
                let (mut handle, answer) = self.wait_on(handle, txn, blocked, request);
                self.inner.waiting.fetch_sub(1, Relaxed);
                self.set_turns(&mut handle);
                answer
            }
            answer => answer,
        }
    }

    fn once<T>(&self, request: impl FnOnce(&mut Handle) -> Result<T>) -> Result<T> {
        request(&mut self.lock())
    }

    fn end<T>(&self, request: impl FnOnce(&mut Handle) -> Result<T>) -> Result<T> {
        let answer = request(&mut self.lock());
        self.inner.ended.notify_all();
        answer
    }
}

/// Makes a request, and returns its answer or its error.
pub(crate) fn answered(
    handle: &mut Handle,
    request: impl FnOnce(&mut Handle) -> Answer,
) -> Result<Answer> {
    let answer = request(handle);
    match answer.code {
        0 => Ok(answer),
        sys::WAITS => Err(Error::Waits(blockers(handle, &answer))),
        code => Err(Error::of(code)),
    }
}

/// The transactions for which a call waits: an answer has the first of them.
fn blockers(handle: &mut Handle, answer: &Answer) -> Vec<u64> {
    let (count, first) = (answer.number as usize, answer.blockers);
    let rest = (first.len()..count).map(|index| handle.blocker(index).number);
    first.into_iter().take(count).chain(rest).collect()
}

/// The reply to a line of a script.
pub(crate) fn reply_to(handle: &mut Handle, line: &str) -> Result<String> {
    let mut text = vec![0; 256];
    let told = handle.request(line.as_bytes(), &mut text);
    if let code @ (sys::BAD | sys::MEMORY) = told.code {
        return Err(Error::of(code));
    }
    let mut size = told.reply as usize;
    if size > text.len() {
        size = answered(handle, |handle| handle.reply(&mut []))?.size as usize;
        text.resize(size, 0);
        answered(handle, |handle| handle.reply(&mut text))?;
    }
    text.truncate(size);
    Ok(String::from_utf8(text).expect("a reply is of ASCII characters"))
}
