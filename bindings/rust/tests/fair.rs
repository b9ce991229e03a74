//! Calls that wait in turn.

use nuzolged::{Error, Result, Shared, Transaction, Tree};
use std::thread::{self, JoinHandle};
use std::time::{Duration, Instant};

const LONG: Duration = Duration::from_secs(60);
const SHORT: Duration = Duration::from_millis(500);

/// A tree with the directory `/d`, which transaction 1 has made.
fn shared() -> Result<Shared> {
    let tree = Shared::new(Tree::new()?, LONG);
    let job = tree.begin()?;
    job.create_dir("/d")?;
    job.commit()?;
    Ok(tree)
}

/// Has a transaction make a directory in a thread, and waits until it waits.
fn makes(
    tree: &Shared,
    job: Transaction<Shared>,
    path: &'static str,
) -> Result<JoinHandle<Result<()>>> {
    let (edge, begun) = (format!("edge {} ", job.number()), Instant::now());
    let thread = thread::spawn(move || job.create_dir(path).and_then(|()| job.commit()));
    while !tree.request("waits")?.contains(&edge) {
        assert!(begun.elapsed() < LONG, "{}", tree.request("waits")?);
        thread::sleep(Duration::from_millis(1));
    }
    Ok(thread)
}

/// Returns how many names a transaction lists in `/d` if it does not wait.
fn listed(job: &Transaction<Shared>) -> Result<usize> {
    let names = job.within(Duration::ZERO).read_dir("/d")?;
    Ok(names.len())
}

#[test]
fn writer_is_not_passed() -> Result<()> {
    let tree = shared()?;
    let (first, writer, second) = (tree.begin()?, tree.begin()?, tree.begin()?);
    let number = writer.number();
    assert_eq!(listed(&first), Ok(0));
    let thread = makes(&tree, writer, "/d/w")?;
    assert_eq!(listed(&second), Err(Error::Waits(vec![number])));
    let reader = thread::spawn(move || second.read_dir("/d").map(|names| names.len()));
    first.commit()?;
    assert_eq!(thread.join().expect("it does not panic"), Ok(()));
    assert_eq!(reader.join().expect("it does not panic"), Ok(1));
    Ok(())
}

#[test]
fn writer_is_passed_without_turns() -> Result<()> {
    let tree = shared()?.without_turns();
    let (first, writer, second) = (tree.begin()?, tree.begin()?, tree.begin()?);
    assert_eq!(listed(&first), Ok(0));
    let thread = makes(&tree, writer, "/d/w")?;
    assert_eq!(listed(&second), Ok(0));
    first.commit()?;
    second.commit()?;
    assert_eq!(thread.join().expect("it does not panic"), Ok(()));
    Ok(())
}

#[test]
fn turn_of_one_that_gives_up_is_gone() -> Result<()> {
    let (tree, begun) = (shared()?, Instant::now());
    let (first, mut writer, second) = (tree.begin()?, tree.begin()?, tree.begin()?);
    writer.set_limit(SHORT);
    assert_eq!(listed(&first), Ok(0));
    let thread = makes(&tree, writer, "/d/w")?;
    assert_eq!(second.read_dir("/d")?, []);
    let given_up = thread.join().expect("it does not panic");
    assert!(matches!(given_up, Err(Error::Waits(_))), "{given_up:?}");
    assert!(begun.elapsed() < LONG, "it is woken");
    Ok(())
}

/// The first waits for the turn of the third, and that for the second. The second is told of no
/// deadlock when it waits for the first, which then goes on.
#[test]
fn ring_through_a_turn_is_no_deadlock() -> Result<()> {
    let tree = shared()?;
    let (first, second, third) = (tree.begin()?, tree.begin()?, tree.begin()?);
    first.create_dir("/t")?;
    second.create_dir("/d/v")?;
    let reader = thread::spawn(move || third.read_dir("/d").map(|names| names.len()));
    while !tree.request("waits")?.contains("edge 4 3 lock") {
        thread::sleep(Duration::from_millis(1));
    }
    let held = first.within(Duration::ZERO).create_dir("/d/x");
    assert_eq!(held, Err(Error::Waits(vec![4])));
    let maker = thread::spawn(move || first.create_dir("/d/x").and_then(|()| first.commit()));
    assert!(second.metadata("/t")?.is_dir());
    second.commit()?;
    assert_eq!(maker.join().expect("it does not panic"), Ok(()));
    assert_eq!(reader.join().expect("it does not panic"), Ok(2));
    Ok(())
}

#[test]
fn each_thread_comes_to_its_end() -> Result<()> {
    const JOBS: u64 = 25;
    let (tree, begun) = (shared()?, Instant::now());
    let job = tree.begin()?;
    job.write("/f", "")?;
    job.commit()?;
    let add = || -> Result<()> {
        let job = tree.begin()?;
        let len = job.metadata("/f")?.len();
        job.truncate("/f", len + 1)?;
        job.commit()
    };
    let work = || -> Result<()> {
        for _ in 0..JOBS {
            while let Err(error) = add() {
                assert!(matches!(error, Error::Deadlock(_)), "{error}");
            }
        }
        Ok(())
    };
    thread::scope(|threads| {
        let jobs: Vec<_> = (0..8).map(|_| threads.spawn(work)).collect();
        jobs.into_iter()
            .try_for_each(|job| job.join().expect("it does not panic"))
    })?;
    assert_eq!(tree.begin()?.metadata("/f")?.len(), 8 * JOBS);
    assert!(begun.elapsed() < LONG);
    Ok(())
}
