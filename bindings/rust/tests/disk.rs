//! Copies from and to directories of the disk.

use nuzolged::{CopyOptions, Error, Permissions, Result, Shared, Tree};
use std::fs;
use std::os::unix::fs::{symlink, MetadataExt, PermissionsExt};
use std::path::{Path, PathBuf};
use std::thread;
use std::time::Duration;

const PLAIN: CopyOptions = CopyOptions::new();

/// A directory of the disk for one test, which is removed at its end.
struct Folder(PathBuf);

impl Folder {
    fn new(name: &str) -> Folder {
        let folder = std::env::temp_dir().join(format!("nuzolged-{}-{name}", std::process::id()));
        fs::create_dir(&folder).unwrap();
        Folder(folder)
    }

    fn at(&self, name: impl AsRef<Path>) -> PathBuf {
        self.0.join(name)
    }

    /// The same with something of each kind in `in`.
    fn with_source(name: &str) -> Folder {
        let folder = Folder::new(name);
        fs::create_dir_all(folder.at("in/sub")).unwrap();
        fs::write(folder.at("in/sub/file"), "some bytes").unwrap();
        fs::hard_link(folder.at("in/sub/file"), folder.at("in/zname")).unwrap();
        fs::set_permissions(folder.at("in/zname"), fs::Permissions::from_mode(0o600)).unwrap();
        symlink("sub/file", folder.at("in/link")).unwrap();
        folder
    }
}

impl Drop for Folder {
    fn drop(&mut self) {
        fs::remove_dir_all(&self.0).unwrap();
    }
}

#[test]
fn copies_are_alike() -> Result<()> {
    let folder = Folder::with_source("alike");
    let tree = Tree::new()?;
    let job = tree.begin()?;
    job.copy_in(folder.at("in"), "/", &PLAIN)?;
    assert_eq!(job.metadata("/zname")?.mode, 0o600);
    assert_eq!(job.metadata("/zname")?.number, job.metadata("/sub/file")?.number);
    job.copy_out("/", folder.at("out"), CopyOptions::new().sync(true))?;
    let [here, there] = ["out/zname", "in/zname"].map(|it| fs::metadata(folder.at(it)).unwrap());
    assert_eq!(
        (here.mode(), here.mtime_nsec()),
        (there.mode(), there.mtime_nsec())
    );
    assert_eq!(here.nlink(), 2);
    assert_eq!(fs::read(folder.at("out/link")).unwrap(), b"some bytes");
    assert_eq!(
        fs::read_link(folder.at("out/link")).unwrap(),
        Path::new("sub/file")
    );
    job.commit()
}

#[test]
fn errors_have_the_path_of_their_side() -> Result<()> {
    let folder = Folder::with_source("errors");
    let tree = Tree::builder().file_size(5).build()?;
    let job = tree.begin()?;
    let told = |error: Error| match error {
        Error::Errno { number, paths, .. } => (number, paths),
        other => panic!("{other:?}"),
    };
    let (none, file) = (folder.at("none"), folder.at("in/sub/file"));
    let missing = job.copy_in(&none, "/", &PLAIN).unwrap_err();
    assert_eq!(told(missing), (2, vec![none]));
    let large = job.copy_in(folder.at("in"), "/", &PLAIN).unwrap_err();
    assert_eq!(told(large), (27, vec![file]));
    let there = job.copy_in(folder.at("in"), "/", &PLAIN).unwrap_err();
    assert_eq!(told(there), (17, vec!["/link".into()]));
    let none = job.copy_out("/none", folder.at("out"), &PLAIN).unwrap_err();
    assert_eq!(told(none), (2, vec!["/none".into()]));
    let bad = job.copy_out("/", "a\0b", &PLAIN).unwrap_err();
    assert_eq!(bad, Error::Invalid);
    assert_eq!(fs::read_dir(&folder.0).unwrap().count(), 1);
    job.commit()
}

#[test]
fn directory_is_replaced_where_that_is_asked_for() -> Result<()> {
    let folder = Folder::with_source("replaced");
    let tree = Tree::new()?;
    let job = tree.begin()?;
    job.write("/run", "echo")?;
    job.set_permissions("/run", Permissions::from_mode(0o4755))?;
    let into = folder.at("in");
    let kept = job.copy_out("/", &into, &PLAIN).unwrap_err();
    assert_eq!(kept.raw_os_error(), Some(39));
    job.copy_out("/", &into, CopyOptions::new().replace(true))?;
    assert_eq!(
        fs::metadata(into.join("run")).unwrap().mode() & 0o7777,
        0o755
    );
    assert!(!into.join("sub").exists());
    job.commit()
}

#[test]
fn copy_waits_as_any_call_does() -> Result<()> {
    let folder = Folder::with_source("waits");
    let tree = Shared::new(Tree::new()?, Duration::from_secs(20));
    let (other, job) = (tree.begin()?, tree.begin()?);
    other.create_dir("/sub")?;
    let number = other.number();
    let at_once = tree.with_limit(Duration::ZERO).begin()?;
    let waits = at_once.copy_in(folder.at("in"), "/", &PLAIN).unwrap_err();
    assert_eq!(waits, Error::Waits(vec![number]));
    drop(at_once);
    let ended = thread::spawn(move || {
        thread::sleep(Duration::from_millis(100));
        other.commit()
    });
    job.copy_in(folder.at("in"), "/", &PLAIN)?;
    ended.join().unwrap()?;
    assert_eq!(job.read_to_string("/sub/file")?, "some bytes");
    job.commit()
}
