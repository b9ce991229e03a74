//! Modes, owners and times: those of `std::fs`, in the tree.

use nuzolged::{Error, FileTimes, Metadata, OpenOptions, Permissions, Result};
use nuzolged::{Shared, Transaction, Tree};
use std::io::{self, Write};
use std::os::unix::fs::{MetadataExt, OpenOptionsExt, PermissionsExt};
use std::path::PathBuf;
use std::time::{Duration, SystemTime, UNIX_EPOCH};
use std::{env, fs, process, thread};

const ENOENT: i32 = 2;
const ENOTDIR: i32 = 20;
const EINVAL: i32 = 22;

/// The error number of what went wrong.
fn errno<T>(result: Result<T>) -> Option<i32> {
    result.err()?.raw_os_error()
}

/// A directory, a file in it, and links to both and to nothing.
fn make(job: &Transaction<&Tree>) -> Result<()> {
    job.create_dir("/d")?;
    job.write("/d/f", "four")?;
    job.symlink("d", "/to_d")?;
    job.symlink("d/f", "/to_f")?;
    job.symlink("none", "/to_none")
}

fn mode(mode: u32) -> Permissions {
    Permissions::from_mode(mode)
}

fn time(seconds: u64) -> FileTimes {
    FileTimes::new().set_modified(UNIX_EPOCH + Duration::from_secs(seconds))
}

fn told(metadata: &Metadata) -> (u32, u32, u32, Option<SystemTime>) {
    let Metadata {
        mode,
        uid,
        gid,
        modified,
        ..
    } = *metadata;
    (mode, uid, gid, modified)
}

#[test]
fn attributes_of_what_is_new_are_told() -> Result<()> {
    let tree = Tree::new()?;
    let job = tree.begin()?;
    make(&job)?;
    assert_eq!(told(&job.metadata("/")?), (0o755, 0, 0, None));
    assert_eq!(told(&job.metadata("/d")?), (0o755, 0, 0, None));
    assert_eq!(told(&job.metadata("/d/f")?), (0o644, 0, 0, None));
    assert_eq!(told(&job.symlink_metadata("/to_f")?), (0o777, 0, 0, None));
    assert_eq!(job.metadata("/d/f")?.permissions(), mode(0o644));
    job.commit()
}

#[test]
fn permissions_are_set() -> Result<()> {
    let tree = Tree::new()?;
    let job = tree.begin()?;
    make(&job)?;
    for path in ["/", "/d", "/d/f"] {
        job.set_permissions(path, mode(0o7421))?;
        assert_eq!(job.metadata(path)?.mode, 0o7421);
    }
    job.set_permissions("/to_f", mode(0))?;
    job.set_permissions("/to_d/", mode(0o1777))?;
    assert_eq!((job.metadata("/d/f")?.mode, job.metadata("/d")?.mode), (0, 0o1777));
    assert_eq!(job.symlink_metadata("/to_f")?.mode, 0o777);
    let mut permissions = job.metadata("/d/f")?.permissions();
    permissions.set_mode(permissions.mode() | 0o111);
    job.set_permissions("/d/f", permissions)?;
    assert_eq!(job.metadata("/to_f")?.mode, 0o111);
    assert_eq!(
        errno(job.set_permissions("/d", mode(0o200_000))),
        Some(EINVAL)
    );
    assert_eq!(
        errno(job.set_permissions("/to_none", mode(0))),
        Some(ENOENT)
    );
    let fault = job.set_permissions("/d/f/", mode(0)).unwrap_err();
    assert_eq!(fault.raw_os_error(), Some(ENOTDIR));
    assert_eq!(fault.paths(), [PathBuf::from("/d/f/")]);
    job.commit()
}

#[test]
fn permissions_are_as_those_of_std() {
    for number in [0, 0o200, 0o644, 0o444, 0o7777, 0o100_644] {
        let (mut here, mut there) = (mode(number), fs::Permissions::from_mode(number));
        assert_eq!(here.mode(), there.mode() & 0o7777);
        for readonly in [true, false, true] {
            assert_eq!(here.readonly(), there.readonly());
            here.set_readonly(readonly);
            there.set_readonly(readonly);
            assert_eq!(here.mode(), there.mode() & 0o7777);
        }
    }
}

#[test]
fn directories_and_files_are_made_with_a_mode() -> Result<()> {
    let tree = Tree::new()?;
    let job = tree.begin()?;
    job.create_dir_mode("/a", 0o2700)?;
    job.create_dir_mode("/kind", 0o40_711)?;
    assert_eq!(job.metadata("/kind")?.mode, 0o711);
    assert_eq!(errno(job.create_dir_mode("/b", 0o200_000)), Some(EINVAL));
    let options = *OpenOptions::new().write(true).create(true).mode(0o600);
    job.open("/f", &options)?.close()?;
    job.open(
        "/f",
        OpenOptions::new().write(true).create(true).mode(0o777),
    )?
    .close()?;
    job.open(
        "/g",
        OpenOptions::new().write(true).create_new(true).mode(0o4711),
    )?
    .close()?;
    let modes = ["/a", "/f", "/g"].map(|path| job.metadata(path).map(|told| told.mode));
    assert_eq!(modes, [Ok(0o2700), Ok(0o600), Ok(0o4711)]);
    let none = job.open(
        "/h",
        OpenOptions::new().write(true).create(true).mode(1 << 31),
    );
    assert_eq!(errno(none), Some(EINVAL));
    assert!(!job.exists("/h")?);
    job.commit()
}

#[test]
fn owners_are_set_and_stay() -> Result<()> {
    let tree = Tree::new()?;
    let job = tree.begin()?;
    make(&job)?;
    let owners = |path: &str| job.metadata(path).map(|told| (told.uid, told.gid));
    job.chown("/to_d", Some(1), Some(u32::MAX - 1))?;
    job.chown("/d", None, Some(3))?;
    job.chown("/d", Some(4), None)?;
    job.chown("/d", None, None)?;
    job.set_permissions("/d/f", mode(0o6755))?;
    job.lchown("/d/f", Some(5), Some(6))?;
    assert_eq!((owners("/d")?, owners("/to_f")?), ((4, 3), (5, 6)));
    assert_eq!(job.metadata("/d/f")?.mode, 0o6755);
    assert_eq!(errno(job.lchown("/to_f", Some(1), None)), Some(EINVAL));
    job.lchown("/to_f", Some(0), None)?;
    assert_eq!(errno(job.chown("/none", None, None)), Some(ENOENT));
    for (uid, gid) in [(Some(u32::MAX), None), (None, Some(u32::MAX))] {
        assert_eq!(job.chown("/d", uid, gid), Err(Error::Invalid));
        assert_eq!(job.lchown("/d", uid, gid), Err(Error::Invalid));
    }
    assert_eq!(owners("/d")?, (4, 3));
    job.commit()
}

#[test]
fn times_are_those_that_were_set() -> Result<()> {
    let tree = Tree::new()?;
    let job = tree.begin()?;
    make(&job)?;
    let most = Duration::new(i64::MAX as u64, 999_999_999);
    for modified in [
        UNIX_EPOCH,
        UNIX_EPOCH + Duration::new(1_234_567_890, 1),
        UNIX_EPOCH - Duration::from_nanos(1),
        UNIX_EPOCH - Duration::new(1, 500_000_000),
        UNIX_EPOCH - Duration::from_secs(1 << 63),
        UNIX_EPOCH + most,
        SystemTime::now(),
    ] {
        job.set_times("/to_f", FileTimes::new().set_modified(modified))?;
        assert_eq!(job.metadata("/d/f")?.modified, Some(modified));
    }
    job.set_times("/d/f", FileTimes::new())?;
    assert!(job.metadata("/d/f")?.modified.is_some());
    job.commit()
}

#[test]
fn directories_and_links_have_no_time() -> Result<()> {
    let tree = Tree::new()?;
    let job = tree.begin()?;
    make(&job)?;
    for path in ["/", "/d", "/to_d"] {
        assert_eq!(errno(job.set_times(path, time(1))), Some(EINVAL), "{path}");
    }
    assert_eq!(errno(job.set_times("/to_none", time(1))), Some(ENOENT));
    for path in ["/to_f", "/to_none", "/d"] {
        let came = job.set_times_nofollow(path, time(1));
        assert_eq!(errno(came), Some(EINVAL), "{path}");
    }
    job.set_times_nofollow("/d/f", time(1))?;
    assert_eq!(
        job.metadata("/to_f")?.modified,
        Some(UNIX_EPOCH + Duration::from_secs(1))
    );
    job.commit()
}

/// Changes the bytes of /d/f.
type Change = fn(&Transaction<&Tree>) -> Result<()>;

#[test]
fn what_changes_the_bytes_takes_the_time_away() -> Result<()> {
    let tree = Tree::new()?;
    let job = tree.begin()?;
    make(&job)?;
    job.set_times("/d/f", time(9))?;
    let changes: [Change; 4] = [
        |step| step.write("/d/f", "other"),
        |step| step.truncate("/d/f", 4),
        |step| step.write("/d/f", ""),
        |step| {
            let file = step.open("/d/f", OpenOptions::new().append(true))?;
            file.write_at(b"x", 9)?;
            file.close()
        },
    ];
    for change in changes {
        let step = job.begin()?;
        change(&step)?;
        assert_eq!(step.metadata("/d/f")?.modified, None);
        drop(step);
        assert!(job.metadata("/d/f")?.modified.is_some());
    }
    job.hard_link("/d/f", "/g")?;
    job.rename("/d/f", "/h")?;
    job.set_permissions("/h", mode(0))?;
    assert!(job.metadata("/h")?.modified.is_some() && job.metadata("/g")?.modified.is_some());
    job.commit()
}

#[test]
fn open_files_have_the_same_calls() -> io::Result<()> {
    let tree = Tree::new()?;
    let job = tree.begin()?;
    make(&job)?;
    let mut file = job.open("/d/f", OpenOptions::new().append(true))?;
    file.set_permissions(mode(0o600))?;
    file.chown(Some(1), None)?;
    file.set_times(time(3))?;
    file.set_times(FileTimes::new())?;
    let three = UNIX_EPOCH + Duration::from_secs(3);
    assert_eq!(told(&file.metadata()?), (0o600, 1, 0, Some(three)));
    file.write_all(b"x")?;
    assert_eq!(file.metadata()?.modified, None);
    file.set_modified(three)?;
    assert_eq!(file.chown(None, Some(u32::MAX)), Err(Error::Invalid));
    assert_eq!(errno(file.set_permissions(mode(1 << 20))), Some(EINVAL));
    file.close()?;
    assert_eq!(told(&job.metadata("/d/f")?), (0o600, 1, 0, Some(three)));
    Ok(job.commit()?)
}

#[test]
fn step_takes_back_what_it_set() -> Result<()> {
    let tree = Tree::new()?;
    let job = tree.begin()?;
    make(&job)?;
    job.set_permissions("/d", mode(0o700))?;
    job.set_times("/d/f", time(3))?;
    let before = (job.metadata("/d")?, job.metadata("/d/f")?);
    let step = job.begin()?;
    step.set_permissions("/d", mode(0))?;
    step.chown("/d/f", Some(1), Some(1))?;
    step.set_times("/d/f", time(4))?;
    step.remove_dir_all("/d")?;
    step.create_dir("/d")?;
    assert_eq!(step.metadata("/d")?.mode, 0o755);
    drop(step);
    assert_eq!((job.metadata("/d")?, job.metadata("/d/f")?), before);
    job.commit()
}

#[test]
fn those_in_the_way_are_told() -> Result<()> {
    let tree = Tree::new()?;
    let job = tree.begin()?;
    make(&job)?;
    job.commit()?;
    let (first, second) = (tree.begin()?, tree.begin()?);
    first.set_permissions("/d/f", mode(0o600))?;
    let waits = Err(Error::Waits(vec![first.number()]));
    assert_eq!(second.metadata("/d/f").map(|_| ()), waits);
    assert_eq!(second.chown("/d/f", Some(1), None), waits);
    assert_eq!(second.read("/d/f")?, b"four");
    first.commit()?;
    assert_eq!(second.metadata("/d/f")?.mode, 0o600);
    second.commit()
}

#[test]
fn thread_waits_for_who_sets_attributes() -> Result<()> {
    let tree = Shared::new(Tree::new()?, Duration::from_secs(60));
    let job = tree.begin()?;
    job.write("/f", "")?;
    job.commit()?;
    let (first, second) = (tree.begin()?, tree.begin()?);
    first.set_permissions("/f", mode(0o600))?;
    first.chown("/f", Some(1), Some(2))?;
    let waiting = thread::spawn(move || second.metadata("/f"));
    thread::sleep(Duration::from_millis(20));
    first.commit()?;
    let found = waiting.join().expect("it does not panic")?;
    assert_eq!(told(&found), (0o600, 1, 2, None));
    Ok(())
}

/// A folder of the disk, which is removed at the end.
struct Folder(PathBuf);

impl Folder {
    fn new() -> io::Result<Folder> {
        let path = env::temp_dir().join(format!("nuzolged-attributes-{}", process::id()));
        fs::create_dir(&path)?;
        Ok(Folder(path))
    }
}

impl Drop for Folder {
    fn drop(&mut self) {
        let _ = fs::remove_dir_all(&self.0);
    }
}

/// A file of a mode on the disk, whatever the umask is.
fn make_there(path: PathBuf, mode: u32) -> io::Result<()> {
    let mut options = fs::OpenOptions::new();
    let file = options.write(true).create(true).mode(0o600).open(path)?;
    file.set_permissions(fs::Permissions::from_mode(mode))
}

#[test]
fn copy_keeps_permissions_as_that_of_std_does() -> io::Result<()> {
    let (folder, tree) = (Folder::new()?, Tree::new()?);
    let job = tree.begin()?;
    for (number, bits) in [0o644, 0o755, 0o4711, 0o400].into_iter().enumerate() {
        for target in ["new", "old"] {
            let (from, to) = (format!("from{number}"), format!("{target}{number}"));
            make_there(folder.0.join(&from), bits)?;
            job.write(&from, "")?;
            job.set_permissions(&from, mode(bits))?;
            job.set_times(&from, time(3))?;
            job.chown(&from, Some(7), Some(8))?;
            if target == "old" {
                make_there(folder.0.join(&to), 0o622)?;
                job.write(&to, "old")?;
                job.set_permissions(&to, mode(0o622))?;
            }
            fs::copy(folder.0.join(&from), folder.0.join(&to))?;
            job.copy(&from, &to)?;
            let there = fs::metadata(folder.0.join(&to))?.mode() & 0o7777;
            assert_eq!(told(&job.metadata(&to)?), (there, 0, 0, None), "{to}");
        }
    }
    Ok(job.commit()?)
}

#[test]
fn report_tells_of_them() -> Result<()> {
    let tree = Tree::new()?;
    let job = tree.begin()?;
    job.create_dir_mode("/a", 0o700)?;
    job.write("/f", "")?;
    job.chown("/f", Some(1), Some(2))?;
    let before = UNIX_EPOCH - Duration::from_nanos(1);
    job.set_times("/f", FileTimes::new().set_modified(before))?;
    let report = tree.request("tree")?;
    for row in [
        "attributes 2 0700 0 0",
        "attributes 3 0644 1 2",
        "time 3 -1 999999999",
    ] {
        assert!(report.lines().any(|line| line == row), "{row}: {report}");
    }
    job.commit()
}
