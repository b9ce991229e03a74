//! The calls of vfs, over a transaction.

use nuzolged::{Error, Result, Shared, Tree};
use nuzolged_vfs::TransactionFS;
use std::error;
use std::ffi::OsStr;
use std::io::{Read, Seek, SeekFrom, Write};
use std::os::unix::ffi::OsStrExt;
use std::result;
use std::sync::Arc;
use std::thread;
use std::time::{Duration, SystemTime};
use vfs::error::VfsErrorKind;
use vfs::{FileSystem, VfsError, VfsFileType, VfsResult};

/// How a test ends.
type Tested = result::Result<(), Box<dyn error::Error>>;

fn shared() -> Result<Shared> {
    Ok(Shared::new(Tree::new()?, Duration::ZERO))
}

fn new() -> Result<TransactionFS> {
    Ok(TransactionFS::new(Arc::new(shared()?.begin()?)))
}

fn commit(fs: TransactionFS) -> Result<()> {
    let transaction = Arc::clone(fs.transaction());
    drop(fs);
    Arc::try_unwrap(transaction)
        .expect("nobody else has it")
        .commit()
}

fn write(fs: &dyn FileSystem, path: &str, bytes: &[u8]) -> VfsResult<()> {
    Ok(fs.create_file(path)?.write_all(bytes)?)
}

fn read(fs: &dyn FileSystem, path: &str) -> VfsResult<String> {
    let mut text = String::new();
    fs.open_file(path)?.read_to_string(&mut text)?;
    Ok(text)
}

/// The error number of a call that failed.
fn number<T>(result: VfsResult<T>) -> Option<i32> {
    match result.err()?.kind() {
        VfsErrorKind::IoError(error) => error.raw_os_error(),
        _ => None,
    }
}

fn is_missing<T>(result: VfsResult<T>) -> bool {
    let is_missing = |error: VfsError| matches!(error.kind(), VfsErrorKind::FileNotFound);
    result.err().map_or(false, is_missing)
}

#[test]
fn directories_are_made_listed_and_removed() -> Tested {
    let fs = new()?;
    fs.create_dir("/a")?;
    fs.create_dir("/a/b")?;
    write(&fs, "/a/f", b"")?;
    assert_eq!(fs.read_dir("")?.collect::<Vec<_>>(), ["a"]);
    assert_eq!(fs.read_dir("/a")?.collect::<Vec<_>>(), ["b", "f"]);
    assert!(fs.exists("")? && fs.exists("/a/b")? && !fs.exists("/b")? && !fs.exists("/a/f/b")?);
    assert_eq!(fs.metadata("")?.file_type, VfsFileType::Directory);
    let existing = [
        fs.create_dir("/a").unwrap_err(),
        fs.create_dir("/a/f").unwrap_err(),
    ];
    assert!(matches!(existing[0].kind(), VfsErrorKind::DirectoryExists));
    assert!(matches!(existing[1].kind(), VfsErrorKind::FileExists));
    assert_eq!(number(fs.remove_dir("/a")), Some(39));
    fs.remove_file("/a/f")?;
    fs.remove_dir("/a/b")?;
    fs.remove_dir("/a")?;
    assert!(is_missing(fs.read_dir("/a")) && is_missing(fs.create_dir("/a/b")));
    Ok(())
}

#[test]
fn files_are_written_read_and_extended() -> Tested {
    let fs = new()?;
    assert!(is_missing(fs.open_file("/f")) && is_missing(fs.append_file("/f")));
    write(&fs, "/f", b"all of it")?;
    fs.append_file("/f")?.write_all(b", twice")?;
    assert_eq!(read(&fs, "/f")?, "all of it, twice");
    let mut file = fs.open_file("/f")?;
    file.seek(SeekFrom::End(-5))?;
    let mut last = String::new();
    file.read_to_string(&mut last)?;
    assert_eq!(last, "twice");
    let metadata = fs.metadata("/f")?;
    assert_eq!((metadata.file_type, metadata.len), (VfsFileType::File, 16));
    write(&fs, "/f", b"new")?;
    assert_eq!(read(&fs, "/f")?, "new");
    assert_eq!(number(fs.create_file("")), Some(21));
    assert_eq!(number(fs.remove_file("")), Some(1));
    Ok(())
}

#[test]
fn files_and_directories_are_copied_and_moved() -> Tested {
    let fs = new()?;
    fs.create_dir("/a")?;
    write(&fs, "/a/f", b"bytes")?;
    fs.copy_file("/a/f", "/a/g")?;
    fs.move_file("/a/g", "/g")?;
    fs.move_dir("/a", "/b")?;
    assert_eq!(
        (read(&fs, "/b/f")?, read(&fs, "/g")?),
        ("bytes".into(), "bytes".into())
    );
    assert!(!fs.exists("/a")? && is_missing(fs.move_file("/a/f", "/f")));
    Ok(())
}

#[test]
fn files_have_the_time_that_was_set() -> Tested {
    let (fs, now) = (new()?, SystemTime::now());
    write(&fs, "/f", b"bytes")?;
    assert_eq!(fs.metadata("/f")?.modified, None);
    fs.set_modification_time("/f", now)?;
    assert_eq!(fs.metadata("/f")?.modified, Some(now));
    assert_eq!(number(fs.set_modification_time("", now)), Some(22));
    Ok(())
}

#[test]
fn links_lead_on_and_names_are_text() -> Tested {
    let fs = new()?;
    write(&fs, "/f", b"bytes")?;
    fs.transaction().symlink("f", "/link")?;
    fs.transaction().symlink("nothing", "/none")?;
    assert_eq!(fs.read_dir("")?.collect::<Vec<_>>(), ["f", "link", "none"]);
    assert_eq!(
        (read(&fs, "/link")?, fs.metadata("/link")?.len),
        ("bytes".into(), 5)
    );
    assert!(!fs.exists("/none")? && is_missing(fs.metadata("/none")));
    let error = fs.create_dir("/none").unwrap_err();
    assert!(matches!(error.kind(), VfsErrorKind::FileExists));
    fs.transaction().write(OsStr::from_bytes(b"/\xff"), "")?;
    let error = fs.read_dir("").err().expect("a name is not text");
    assert!(matches!(error.kind(), VfsErrorKind::Other(_)));
    let error = fs.create_dir("/a\0b").unwrap_err();
    assert!(matches!(error.kind(), VfsErrorKind::InvalidPath));
    Ok(())
}

#[test]
fn step_is_kept_or_leaves_nothing() -> Tested {
    let job = shared()?.begin()?;
    for is_kept in [false, true] {
        let fs = TransactionFS::new(Arc::new(job.begin()?));
        fs.create_dir("/out")?;
        let mut log = fs.create_file("/out/log")?;
        log.write_all(b"all of it")?;
        drop(log);
        if is_kept {
            commit(fs)?;
        }
    }
    assert_eq!(job.read("/out/log")?, b"all of it");
    Ok(job.commit()?)
}

#[test]
fn call_that_waits_names_who_blocks_it() -> Tested {
    let tree = shared()?;
    let other = tree.begin()?;
    other.create_dir("/a")?;
    let fs = TransactionFS::new(Arc::new(tree.begin()?));
    let error = fs.read_dir("").err().expect("it waits");
    let inside = match error.kind() {
        VfsErrorKind::IoError(error) => Error::inside(error),
        _ => None,
    };
    assert_eq!(inside, Some(&Error::Waits(vec![other.number()])));
    Ok(())
}

#[test]
fn files_go_to_threads() -> Tested {
    let fs = new()?;
    let mut file = fs.create_file("/f")?;
    let written = thread::spawn(move || file.write_all(b"bytes"));
    written.join().expect("it does not panic")?;
    assert_eq!(read(&fs, "/f")?, "bytes");
    Ok(commit(fs)?)
}
