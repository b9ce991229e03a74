//! A tree that threads share.

use nuzolged::{Error, OpenOptions, OwnedFile, Refusal, Result, Rule, Shared, Transaction, Tree};
use std::io::{ErrorKind, Write};
use std::sync::{mpsc, Arc, Barrier};
use std::thread;
use std::time::{Duration, Instant};

const LONG: Duration = Duration::from_secs(60);
const SHORT: Duration = Duration::from_millis(50);

fn shared(limit: Duration) -> Result<Shared> {
    Ok(Shared::new(Tree::new()?, limit))
}

#[test]
fn call_waits_until_the_other_has_ended() -> Result<()> {
    let (tree, begun) = (shared(LONG)?, Instant::now());
    let first = tree.begin()?;
    first.create_dir("/a")?;
    let second = tree.begin()?;
    let waiting = thread::spawn(move || second.read_dir("/").map(|names| names.len()));
    wait_for(&tree, "edges 1\nedge 2 1 lock\nranks 1:0 2:1\n")?;
    first.commit()?;
    assert_eq!(waiting.join().expect("it does not panic"), Ok(1));
    assert!(begun.elapsed() < LONG, "it is woken");
    Ok(())
}

#[test]
fn call_goes_on_when_the_other_is_dropped() -> Result<()> {
    let (tree, begun) = (shared(LONG)?, Instant::now());
    let first = tree.begin()?;
    first.create_dir("/a")?;
    let second = tree.begin()?;
    let waiting = thread::spawn(move || second.create_dir("/a"));
    wait_for(&tree, "edges 1\nedge 2 1 lock\nranks 1:0 2:1\n")?;
    drop(first);
    assert_eq!(waiting.join().expect("it does not panic"), Ok(()));
    assert!(begun.elapsed() < LONG, "it is woken");
    Ok(())
}

#[test]
fn call_waits_no_longer_than_the_limit() -> Result<()> {
    let tree = shared(SHORT)?;
    let (first, second) = (tree.begin()?, tree.begin()?);
    first.create_dir("/a")?;
    let begun = Instant::now();
    assert_eq!(second.metadata("/a"), Err(Error::Waits(vec![first.number()])));
    assert!(begun.elapsed() >= SHORT);
    assert_eq!(tree.request("waits")?, "edges 0\nranks\n");
    Ok(())
}

#[test]
fn limits_are_of_the_tree_and_of_a_transaction() -> Result<()> {
    let tree = shared(LONG)?;
    let first = tree.begin()?;
    first.create_dir("/a")?;
    let second = tree.with_limit(SHORT).begin()?;
    let mut third = tree.begin()?;
    third.set_limit(SHORT);
    let step = third.begin()?;
    for job in [&second, &third, &step] {
        let begun = Instant::now();
        assert_eq!(job.metadata("/a"), Err(Error::Waits(vec![first.number()])));
        assert!(begun.elapsed() >= SHORT && begun.elapsed() < LONG);
        assert!(!tree.request("waits")?.contains("lock"), "it is forgotten");
    }
    Ok(())
}

#[test]
fn limit_is_of_a_call() -> Result<()> {
    let tree = shared(LONG)?;
    let (job, other) = (tree.begin()?, tree.begin()?);
    job.write("/f", "bytes")?;
    let begun = Instant::now();
    assert_eq!(
        other.within(SHORT).metadata("/f"),
        Err(Error::Waits(vec![job.number()]))
    );
    let step = other.within(SHORT).begin()?;
    assert_eq!(step.metadata("/f"), Err(Error::Waits(vec![job.number()])));
    assert!(begun.elapsed() >= 2 * SHORT && begun.elapsed() < LONG);
    drop(step);
    job.commit()?;
    let third = tree.begin()?;
    let calls = other.within(SHORT);
    let file = calls.open("/f", OpenOptions::new().read(true))?;
    third.hard_link("/f", "/g")?;
    drop(file);
    drop(calls);
    third.commit()?;
    other.commit()?;
    assert!(!tree.request("tree")?.contains("fd"), "a commit closes it");
    Ok(())
}

#[test]
fn cycle_is_told_at_once() -> Result<()> {
    let (tree, begun) = (shared(LONG)?, Instant::now());
    let (first, second) = (tree.begin()?, tree.begin()?);
    first.create_dir("/a")?;
    second.create_dir("/b")?;
    let waiting = thread::spawn(move || first.metadata("/b").and_then(|_| first.commit()));
    wait_for(&tree, "edges 1\nedge 1 2 lock\nranks 1:1 2:0\n")?;
    assert_eq!(second.metadata("/a"), Err(Error::Deadlock(vec![2, 1])));
    assert_eq!(
        tree.request("waits")?,
        "edges 1\nedge 1 2 lock\nranks 1:1 2:0\n"
    );
    second.commit()?;
    assert_eq!(waiting.join().expect("it does not panic"), Ok(()));
    assert!(begun.elapsed() < LONG);
    Ok(())
}

/// A tree in which transactions 1 and 2 wait for each other for ever, by lines that nobody takes
/// back. (A call of a transaction is forgotten when it is told of a deadlock.)
fn with_a_deadlock() -> Result<Shared> {
    let tree = shared(LONG)?;
    for line in ["begin", "begin", "1 mkdir /1", "2 mkdir /2", "1 list /2", "2 list /1"] {
        tree.request(line)?;
    }
    Ok(tree)
}

#[test]
fn cycle_is_told_beside_another_one() -> Result<()> {
    let (tree, begun) = (with_a_deadlock()?, Instant::now());
    let (first, second) = (tree.begin()?, tree.begin()?);
    first.create_dir("/a")?;
    second.create_dir("/b")?;
    let waiting = thread::spawn(move || first.metadata("/b").and_then(|_| first.commit()));
    wait_for(
        &tree,
        "edges 3\nedge 1 2 lock\nedge 2 1 lock\nedge 3 4 lock\ncycle 1 2\n",
    )?;
    assert_eq!(second.metadata("/a"), Err(Error::Deadlock(vec![4, 3])));
    second.commit()?;
    assert_eq!(waiting.join().expect("it does not panic"), Ok(()));
    assert!(begun.elapsed() < LONG);
    Ok(())
}

#[test]
fn who_waits_behind_a_cycle_is_told_of_none() -> Result<()> {
    let tree = with_a_deadlock()?;
    let third = tree.with_limit(SHORT).begin()?;
    assert_eq!(third.metadata("/1"), Err(Error::Waits(vec![1])));
    let fourth = tree.begin()?;
    let waiting = thread::spawn(move || fourth.metadata("/1").err());
    wait_for(
        &tree,
        "edges 3\nedge 1 2 lock\nedge 2 1 lock\nedge 4 1 lock\ncycle 1 2\n",
    )?;
    tree.abort(1)?;
    let told = waiting.join().expect("it does not panic");
    assert_eq!(told.map(|error| error.kind()), Some(ErrorKind::NotFound));
    Ok(())
}

#[test]
fn job_and_its_step_make_a_cycle_under_moss() -> Result<()> {
    let tree = Shared::new(Tree::with_rule(Rule::Moss)?, LONG);
    let job = tree.begin()?;
    job.create_dir("/a")?;
    let step = job.begin()?;
    assert_eq!(step.metadata("/a"), Err(Error::Deadlock(vec![2, 1])));
    Ok(())
}

#[test]
fn deadlocks_cost_no_time_limit() -> Result<()> {
    let (tree, begun) = (shared(LONG)?, Instant::now());
    for _ in 0..20 {
        let meet = Barrier::new(2);
        let cross = |here, there| -> Result<()> {
            let job = tree.begin()?;
            job.write(here, "1")?;
            meet.wait();
            job.write(there, "2")?;
            job.commit()
        };
        let ends = thread::scope(|threads| {
            [("/p", "/q"), ("/q", "/p")]
                .map(|(here, there)| threads.spawn(move || cross(here, there)))
                .map(|job| job.join().expect("it does not panic"))
        });
        let told = |end: &&Result<()>| matches!(end, Err(Error::Deadlock(_)));
        assert_eq!(ends.iter().filter(told).count(), 1, "{ends:?}");
    }
    assert!(begun.elapsed() < LONG);
    Ok(())
}

#[test]
fn dropped_file_waits_for_nobody() -> Result<()> {
    let tree = shared(LONG)?;
    let prepared = tree.begin()?;
    prepared.write("/f", "bytes")?;
    prepared.commit()?;
    let (job, other) = (tree.begin()?, tree.begin()?);
    let files = (0..3)
        .map(|_| job.open("/f", OpenOptions::new().read(true)))
        .collect::<Result<Vec<_>>>()?;
    other.hard_link("/f", "/g")?;
    let begun = Instant::now();
    drop(files);
    assert!(begun.elapsed() < LONG / 2, "a drop does not wait");
    assert_eq!(tree.request("waits")?, "edges 0\nranks\n");
    other.commit()?;
    job.commit()?;
    let report = tree.request("tree")?;
    assert!(!report.contains("fd"), "a commit closes them: {report}");
    Ok(())
}

#[test]
fn commit_that_has_to_wait_gives_the_transaction_back() -> Result<()> {
    let tree = shared(SHORT)?;
    let prepared = tree.begin()?;
    prepared.write("/f", "bytes")?;
    prepared.commit()?;
    let (job, other) = (tree.begin()?, tree.begin()?);
    let file = job.open("/f", OpenOptions::new().read(true))?;
    other.hard_link("/f", "/g")?;
    assert_eq!(file.close(), Err(Error::Waits(vec![other.number()])));
    let (job, error) = job.try_commit().unwrap_err();
    assert_eq!(error, Error::Waits(vec![other.number()]));
    other.commit()?;
    job.commit()?;
    assert!(!tree.request("tree")?.contains("fd"));
    Ok(())
}

#[test]
fn forgotten_transaction_is_aborted_by_its_number() -> Result<()> {
    let tree = shared(SHORT)?;
    let job = tree.begin()?;
    job.create_dir("/a")?;
    let number = job.number();
    std::mem::forget(job);
    assert_eq!(tree.abort(number), Ok(1));
    assert_eq!(tree.begin()?.read_dir("/")?, []);
    assert_eq!(tree.abort(number), Err(Error::Refused(Refusal::Ended)));
    tree.checkpoint()
}

#[test]
fn owned_file_goes_to_another_thread() -> Result<()> {
    let tree = shared(LONG)?;
    let job = Arc::new(tree.begin()?);
    let options = *OpenOptions::new().write(true).create_new(true);
    let mut log = job.open_owned("/log", &options)?;
    let written = thread::spawn(move || log.write_all(b"all of it"));
    written
        .join()
        .expect("it does not panic")
        .expect("there is room");
    assert_eq!(job.read("/log")?, b"all of it");
    Arc::try_unwrap(job).expect("the file is closed").commit()
}

#[test]
fn trees_and_transactions_go_between_threads() {
    fn both<T: Send + Sync>() {}
    both::<Shared>();
    both::<Transaction<Shared>>();
    both::<OwnedFile<Shared>>();
}

#[test]
fn waiting_step_is_ended_with_its_job() -> Result<()> {
    let tree = shared(LONG)?;
    let (job, other) = (tree.begin()?, tree.begin()?);
    other.create_dir("/a")?;
    let step = job.begin()?;
    let waiting = thread::spawn(move || step.metadata("/a"));
    wait_for(
        &tree,
        "edges 2\nedge 1 3 child\nedge 3 2 lock\nranks 1:2 2:0 3:1\n",
    )?;
    job.abort()?;
    let ended = waiting.join().expect("it does not panic");
    assert_eq!(ended, Err(Error::Refused(Refusal::Ended)));
    Ok(())
}

#[test]
fn waiting_step_goes_on_by_a_call_of_its_job() -> Result<()> {
    let (tree, begun) = (shared(LONG)?, Instant::now());
    let first = tree.begin()?;
    first.create_dir("/p")?;
    first.create_dir("/a")?;
    first.commit()?;
    let (job, other) = (tree.begin()?, tree.begin()?);
    let step = job.begin()?;
    other.create_dir("/a/x")?;
    let waiting = thread::spawn(move || step.metadata("/p/../a/x").err());
    wait_for(
        &tree,
        "edges 2\nedge 2 4 child\nedge 4 3 lock\nranks 2:2 3:0 4:1\n",
    )?;
    job.remove_dir("/p")?;
    let told = waiting.join().expect("it does not panic");
    assert_eq!(told.map(|error| error.kind()), Some(ErrorKind::NotFound));
    assert!(begun.elapsed() < LONG, "it is made again");
    Ok(())
}

#[test]
fn steps_go_to_threads() -> Result<()> {
    let tree = shared(LONG)?;
    let job = tree.begin()?;
    job.write("/log", b"")?;
    let steps = (0..4).map(|_| job.begin()).collect::<Result<Vec<_>>>()?;
    let threads: Vec<_> = steps
        .into_iter()
        .map(|step| thread::spawn(|| log(step)))
        .collect();
    for thread in threads {
        thread.join().expect("it does not panic")?;
    }
    let text = job.read("/log")?;
    let mut lines: Vec<_> = text.split_inclusive(|byte| *byte == b'\n').collect();
    lines.sort();
    assert_eq!(lines.concat(), b"step 2\nstep 3\nstep 4\nstep 5\n");
    job.commit()
}

/// Adds a line to a file of which the other steps have to keep off until this one has ended.
fn log(step: Transaction<Shared>) -> Result<()> {
    let mut log = step.open("/log", OpenOptions::new().append(true))?;
    log.write_all(format!("step {}\n", step.number()).as_bytes())
        .expect("it waits its turn");
    log.close()?;
    step.commit()
}

#[test]
fn commit_over_a_live_step_aborts() -> Result<()> {
    let tree = shared(LONG)?;
    let job = tree.begin()?;
    let step = job.begin()?;
    step.create_dir("/a")?;
    assert_eq!(job.commit(), Err(Error::Refused(Refusal::ChildLive)));
    assert_eq!(step.commit(), Err(Error::Refused(Refusal::Ended)));
    assert_eq!(tree.request("tree")?, "tree 1\ndir 1\n");
    Ok(())
}

#[test]
fn refusals_are_told() -> Result<()> {
    let tree = Shared::new(Tree::builder().depth(64).build()?, LONG);
    let mut jobs = vec![tree.begin()?];
    assert_eq!(jobs[0].cancel_wait(), Err(Error::Refused(Refusal::NoAsk)));
    assert_eq!(tree.checkpoint(), Err(Error::Refused(Refusal::Live)));
    let refused = loop {
        match jobs[jobs.len() - 1].begin() {
            Ok(step) => jobs.push(step),
            Err(error) => break error,
        }
    };
    assert_eq!((jobs.len(), refused), (64, Error::Refused(Refusal::Deep)));
    Ok(())
}

#[test]
fn panic_aborts_the_transaction_of_its_thread() -> Result<()> {
    let tree = shared(LONG)?;
    let job = tree.begin()?;
    job.create_dir("/a")?;
    let (tell, told) = mpsc::channel();
    let thread = thread::spawn(move || {
        tell.send(job.number()).expect("somebody listens");
        panic!("the job gives up");
    });
    assert_eq!(told.recv(), Ok(1));
    assert!(thread.join().is_err());
    assert_eq!(tree.begin()?.read_dir("/")?, []);
    tree.checkpoint()
}

/// Waits until the report on who waits for whom is this one.
fn wait_for(tree: &Shared, report: &str) -> Result<()> {
    let begun = Instant::now();
    while tree.request("waits")? != report {
        assert!(begun.elapsed() < LONG, "{}", tree.request("waits")?);
        thread::sleep(Duration::from_millis(1));
    }
    Ok(())
}
