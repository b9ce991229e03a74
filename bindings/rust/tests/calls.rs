//! Each call by one thread: what it does, and what blocks it.

use nuzolged::{Error, Kind, OpenOptions, Refusal, Result, Rule, Tree};
use std::ffi::OsStr;
use std::io::{self, BufRead, BufReader, ErrorKind, Read, Seek, SeekFrom, Write};
use std::os::unix::ffi::OsStrExt;
use std::os::unix::fs::FileExt;
use std::path::Path;

const ENOENT: i32 = 2;
const EEXIST: i32 = 17;
const ENOTEMPTY: i32 = 39;

/// The error number of what went wrong.
fn errno<T>(result: Result<T>) -> Option<i32> {
    result.err()?.raw_os_error()
}

#[test]
fn directories_are_made_listed_and_removed() -> Result<()> {
    let tree = Tree::new()?;
    let job = tree.begin()?;
    job.create_dir("/b")?;
    job.write("/a", b"")?;
    assert_eq!(errno(job.create_dir("/b")), Some(EEXIST));
    let listed = job.read_dir("/")?;
    let told: Vec<_> = listed
        .iter()
        .map(|entry| (entry.name.to_str().unwrap(), entry.kind))
        .collect();
    assert_eq!(told, [("a", Kind::File), ("b", Kind::Dir)]);
    assert!(job.metadata("/b")?.is_dir());
    job.create_dir("/b/c")?;
    assert_eq!(errno(job.remove_dir("/b")), Some(ENOTEMPTY));
    job.remove_dir("/b/c")?;
    job.remove_dir("/b")?;
    assert_eq!(errno(job.read_dir("/b")), Some(ENOENT));
    job.commit()
}

#[test]
fn names_of_files_change() -> Result<()> {
    let tree = Tree::new()?;
    let job = tree.begin()?;
    job.write("/f", b"four")?;
    job.hard_link("/f", "/g")?;
    let told = job.metadata("/g")?;
    assert_eq!(
        (told.kind, told.number, told.links, told.len),
        (Kind::File, 2, 2, 4)
    );
    job.rename("/g", "/h")?;
    job.remove_file("/f")?;
    job.truncate("/h", 2)?;
    assert_eq!(job.read("/h")?, b"fo");
    assert_eq!(job.metadata("/h")?.links, 1);
    assert_eq!(job.truncate("/h", u64::MAX), Err(Error::Invalid));
    job.commit()
}

#[test]
fn names_are_of_any_bytes() -> Result<()> {
    let tree = Tree::new()?;
    let job = tree.begin()?;
    let name = OsStr::from_bytes(b"\xff \n");
    job.create_dir(name)?;
    assert_eq!(job.read_dir("/")?[0].name, name);
    assert_eq!(job.create_dir("/a\0b"), Err(Error::Invalid));
    job.commit()
}

#[test]
fn files_are_read_and_written_as_by_std() -> io::Result<()> {
    let tree = Tree::new()?;
    let job = tree.begin()?;
    let options = *OpenOptions::new().read(true).write(true).create_new(true);
    let mut log = job.open("/log", &options)?;
    writeln!(log, "one")?;
    writeln!(log, "two")?;
    log.seek(SeekFrom::Start(0))?;
    let lines: Vec<_> = BufReader::new(&mut log)
        .lines()
        .collect::<io::Result<_>>()?;
    assert_eq!(lines, ["one", "two"]);
    assert_eq!(log.seek(SeekFrom::End(-4))?, 4);
    assert_eq!(log.seek(SeekFrom::Current(1))?, 5);
    assert_eq!(
        log.seek(SeekFrom::Current(-9)).unwrap_err().kind(),
        ErrorKind::InvalidInput
    );
    let mut text = String::new();
    log.read_to_string(&mut text)?;
    assert_eq!(text, "wo\n");
    assert_eq!(errno(job.open("/log", &options)), Some(EEXIST));
    log.close()?;
    Ok(job.commit()?)
}

#[test]
fn files_are_read_and_written_at_offsets() -> Result<()> {
    let tree = Tree::new()?;
    let job = tree.begin()?;
    let file = job.open("/f", OpenOptions::new().read(true).write(true).create(true))?;
    assert_eq!(file.write_at(b"bytes", 2)?, 5);
    file.set_len(4)?;
    let mut buffer = *b"......";
    assert_eq!(file.read_at(&mut buffer, 1)?, 3);
    assert_eq!(&buffer, b"\0by...");
    assert_eq!(file.metadata()?.len(), 4);
    file.write_all_at(b"long", 4).expect("there is room");
    let mut both = [0; 6];
    file.read_exact_at(&mut both, 2).expect("there are so many");
    assert_eq!(&both, b"bylong");
    let error = file.read_exact_at(&mut both, 3).unwrap_err();
    assert_eq!(error.kind(), ErrorKind::UnexpectedEof);
    assert_eq!(file.write_at(b"x", u64::MAX), Err(Error::Invalid));
    file.close()?;
    job.commit()
}

#[test]
fn files_are_opened_as_asked() -> Result<()> {
    let tree = Tree::new()?;
    let job = tree.begin()?;
    let nothing = OpenOptions::new();
    assert_eq!(job.open("/f", &nothing).unwrap_err(), Error::Invalid);
    assert_eq!(
        errno(job.open("/f", OpenOptions::new().read(true))),
        Some(ENOENT)
    );
    job.write("/f", b"one")?;
    let mut log = job.open("/f", OpenOptions::new().append(true))?;
    log.write_all(b" two").expect("there is room");
    drop(log);
    assert_eq!(job.read("/f")?, b"one two");
    job.write("/f", b"three")?;
    assert_eq!(job.read("/f")?, b"three");
    let cut = *OpenOptions::new().append(true).truncate(true);
    assert_eq!(job.open("/f", &cut).unwrap_err(), Error::Invalid);
    assert_eq!(job.read("/f")?, b"three");
    job.commit()
}

#[test]
fn file_is_read_and_written_whole() -> Result<()> {
    let tree = Tree::new()?;
    let job = tree.begin()?;
    let bytes = b"seventy".repeat(10_000_000);
    job.write("/f", &bytes)?;
    assert_eq!(job.metadata("/f")?.len, 70_000_000);
    assert!(job.read("/f")? == bytes);
    job.commit()
}

#[test]
fn dropped_transaction_is_aborted() -> Result<()> {
    let tree = Tree::new()?;
    let job = tree.begin()?;
    {
        let step = job.begin()?;
        step.create_dir("/gone")?;
    }
    let step = job.begin()?;
    step.create_dir("/kept")?;
    step.commit()?;
    let step = job.begin()?;
    step.create_dir("/gone")?;
    assert_eq!(errno(step.metadata("/kept/none")), Some(ENOENT));
    assert_eq!(step.abort()?, 2);
    job.commit()?;
    assert_eq!(
        tree.request("tree")?,
        "tree 3\ndir 1\ndir 3\nedge 1 kept 3\n"
    );
    Ok(())
}

#[test]
fn open_file_is_closed_where_it_is_dropped() -> Result<()> {
    let tree = Tree::new()?;
    let job = tree.begin()?;
    drop(job.open("/f", OpenOptions::new().write(true).create(true))?);
    job.commit()?;
    assert_eq!(
        tree.request("tree")?,
        "tree 3\ndir 1\nedge 1 f 2\nfile 2 0\n"
    );
    Ok(())
}

#[test]
fn those_in_the_way_are_told() -> Result<()> {
    let tree = Tree::new()?;
    let (first, second) = (tree.begin()?, tree.begin()?);
    let third = tree.begin()?;
    first.create_dir("/a")?;
    second.create_dir("/b")?;
    let waits = third.read_dir("/").unwrap_err();
    assert_eq!(waits, Error::Waits(vec![first.number(), second.number()]));
    assert_eq!(io::Error::from(waits).kind(), ErrorKind::WouldBlock);
    third.cancel_wait()?;
    assert_eq!(third.cancel_wait(), Err(Error::Refused(Refusal::NoAsk)));
    first.commit()?;
    drop(second);
    assert_eq!(third.read_dir("/")?.len(), 1);
    third.commit()
}

#[test]
fn parent_is_in_the_way_under_moss() -> Result<()> {
    let tree = Tree::with_rule(Rule::Moss)?;
    let job = tree.begin()?;
    job.create_dir("/a")?;
    let step = job.begin()?;
    assert_eq!(step.metadata("/a"), Err(Error::Waits(vec![job.number()])));
    Ok(())
}

#[test]
fn checkpoint_forgets_transactions() -> Result<()> {
    let mut tree = Tree::new()?;
    let job = tree.begin()?;
    job.create_dir("/a")?;
    job.commit()?;
    tree.checkpoint()?;
    assert_eq!(tree.request("commit 1")?, "refused NoTxn\n");
    assert_eq!(tree.begin()?.metadata("/a")?.number, 2);
    Ok(())
}

#[test]
fn lines_are_carried_out() -> Result<()> {
    let tree = Tree::new()?;
    assert_eq!(tree.request("begin")?, "txn 1\n");
    assert_eq!(tree.request("1 rmdir /a%20b")?, "2 ENOENT\n");
    assert_eq!(tree.request("# nothing")?, "");
    assert_eq!(tree.request("bigin"), Err(Error::Invalid));
    for name in 1..=40 {
        tree.request(&format!("1 mkdir /{name}"))?;
    }
    let report = tree.request("tree")?;
    assert!(report.len() > 256 && report.starts_with("tree 81\n") && report.ends_with(" 11\n"));
    Ok(())
}

#[test]
fn errors_are_those_of_io() -> Result<()> {
    let tree = Tree::new()?;
    let job = tree.begin()?;
    let missing = job.rename("/a", "/b").unwrap_err();
    assert_eq!(missing.kind(), ErrorKind::NotFound);
    assert_eq!(missing.paths(), [Path::new("/a"), Path::new("/b")]);
    assert_eq!(
        missing.to_string(),
        "No such file or directory (os error 2): /a -> /b"
    );
    assert_eq!(io::Error::from(missing).raw_os_error(), Some(ENOENT));
    assert_eq!(Error::Invalid.kind(), ErrorKind::InvalidInput);
    assert_eq!(
        Error::Refused(Refusal::Memory).kind(),
        ErrorKind::OutOfMemory
    );
    let ended = io::Error::from(Error::Refused(Refusal::Ended));
    assert_eq!(ended.to_string(), "the transaction has ended");
    assert_eq!(Error::inside(&ended), Some(&Error::Refused(Refusal::Ended)));
    job.commit()
}
