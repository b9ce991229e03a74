//! The limits of a tree.

use nuzolged::{Error, Refusal, Result, Rule, Shared, Tree};
use std::io::{self, ErrorKind};
use std::time::Duration;

const EFBIG: i32 = 27;
const EMLINK: i32 = 31;
const FULL: Error = Error::Refused(Refusal::Full);
const DEEP: Error = Error::Refused(Refusal::Deep);
const BAD: Error = Error::Refused(Refusal::BadLimits);

/// The error number of what went wrong.
fn errno<T>(result: Result<T>) -> Option<i32> {
    result.err()?.raw_os_error()
}

#[test]
fn file_takes_no_more() -> Result<()> {
    let mut tree = Tree::builder().file_size(1_048_576).build()?;
    let job = tree.begin()?;
    let most = vec![1; 1_048_576];
    job.write("/f", &most)?;
    assert_eq!(job.read("/f")?, most);
    assert_eq!(errno(job.write("/g", [0; 1_048_577])), Some(EFBIG));
    assert_eq!(errno(job.truncate("/f", 1_048_577)), Some(EFBIG));
    job.commit()?;
    tree.checkpoint()?;
    let job = tree.begin()?;
    assert_eq!(errno(job.truncate("/f", 1_048_577)), Some(EFBIG));
    Ok(())
}

#[test]
fn file_has_no_more_names() -> Result<()> {
    let tree = Tree::builder().links(2).build()?;
    let job = tree.begin()?;
    job.write("/f", b"")?;
    job.hard_link("/f", "/g")?;
    assert_eq!(errno(job.hard_link("/f", "/h")), Some(EMLINK));
    job.remove_file("/g")?;
    job.hard_link("/f", "/h")
}

#[test]
fn step_stands_no_deeper() -> Result<()> {
    let tree = Tree::builder().depth(2).rule(Rule::Moss).build()?;
    let job = tree.begin()?;
    let step = job.begin()?;
    assert_eq!(step.begin().unwrap_err(), DEEP);
    drop(job.begin()?);
    drop(tree.begin()?);
    Ok(())
}

#[test]
fn no_more_transactions_begin_before_a_checkpoint() -> Result<()> {
    let mut tree = Tree::builder().transactions(2).build()?;
    for _ in 0..2 {
        let job = tree.begin()?;
        job.begin()?.commit()?;
        assert_eq!(job.begin().unwrap_err(), FULL);
        assert_eq!(tree.begin().unwrap_err(), FULL);
        job.commit()?;
        tree.checkpoint()?;
    }
    Ok(())
}

#[test]
fn no_more_calls_are_granted_before_a_checkpoint() -> Result<()> {
    let mut tree = Tree::builder().calls(2).build()?;
    for _ in 0..2 {
        let job = tree.begin()?;
        job.create_dir("/a")?;
        job.remove_dir("/a")?;
        assert_eq!(job.read_dir("/"), Err(FULL));
        job.commit()?;
        tree.checkpoint()?;
    }
    Ok(())
}

#[test]
fn limits_above_the_greatest_are_refused() {
    let greatest = Tree::builder()
        .file_size(1 << 47)
        .links(1 << 32)
        .depth(4096)
        .transactions(1 << 62)
        .calls(1 << 62);
    assert!(greatest.build().is_ok());
    assert_eq!(greatest.file_size((1 << 47) + 1).build().unwrap_err(), BAD);
    assert_eq!(greatest.links((1 << 32) + 1).build().unwrap_err(), BAD);
    assert_eq!(greatest.depth(4097).build().unwrap_err(), BAD);
    assert_eq!(greatest.transactions(u64::MAX).build().unwrap_err(), BAD);
    assert_eq!(greatest.calls((1 << 62) + 1).build().unwrap_err(), BAD);
    assert_eq!(io::Error::from(BAD).kind(), ErrorKind::InvalidInput);
}

#[test]
fn limits_that_are_not_set_are_the_greatest() -> Result<()> {
    let tree = Tree::new()?;
    let job = tree.begin()?;
    job.write("/f", b"")?;
    job.truncate("/f", 1 << 32)?;
    assert_eq!(job.metadata("/f")?.len, 1 << 32);
    assert_eq!(errno(job.truncate("/f", (1 << 47) + 1)), Some(EFBIG));
    for name in 1..=1500 {
        job.hard_link("/f", name.to_string())?;
    }
    assert_eq!(job.metadata("/f")?.links, 1501);
    drop(job);
    assert_eq!(depth_of(tree)?, 4096);
    assert_eq!(depth_of(Tree::builder().depth(64).build()?)?, 64);
    Ok(())
}

/// How deep the steps of a tree may be.
fn depth_of(tree: Tree) -> Result<usize> {
    let tree = Shared::new(tree, Duration::ZERO);
    let mut steps = vec![tree.begin()?];
    let refused = loop {
        match steps[steps.len() - 1].begin() {
            Ok(step) => steps.push(step),
            Err(error) => break error,
        }
    };
    assert_eq!(refused, DEEP);
    Ok(steps.len())
}
