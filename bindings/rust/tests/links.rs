//! Symbolic links: what leads through them, and what is about them.

use nuzolged::{Error, Kind, OpenOptions, Result, Transaction, Tree};
use std::io::{self, ErrorKind};
use std::os::unix::fs::symlink;
use std::path::{Path, PathBuf};
use std::{env, fs, process};

const ENOENT: i32 = 2;
const EEXIST: i32 = 17;
const ENOTDIR: i32 = 20;
const EINVAL: i32 = 22;
const ENAMETOOLONG: i32 = 36;
const ELOOP: i32 = 40;

/// The error number of what went wrong.
fn errno<T>(result: Result<T>) -> Option<i32> {
    result.err()?.raw_os_error()
}

/// A directory, a file in it, and links to both, to nothing and to itself.
fn make_links(job: &Transaction<&Tree>) -> Result<()> {
    job.create_dir("/d")?;
    job.write("/d/f", "four")?;
    job.symlink("/d", "/to_d")?;
    job.symlink("d/f", "/to_f")?;
    job.symlink("none", "/to_none")?;
    job.symlink("loop", "/loop")
}

#[test]
fn links_are_made_and_read() -> Result<()> {
    let tree = Tree::new()?;
    let job = tree.begin()?;
    make_links(&job)?;
    assert_eq!(job.read_link("/to_f")?, Path::new("d/f"));
    assert_eq!(job.read_link("to_none")?, Path::new("none"));
    let told = job.symlink_metadata("/to_f")?;
    assert_eq!((told.kind, told.links, told.len), (Kind::Symlink, 1, 3));
    assert!(told.is_symlink() && !told.is_file() && !told.is_dir());
    assert!(told.file_type().is_symlink());
    assert!(job.symlink_metadata("/d")?.is_dir() && job.symlink_metadata("/d/f")?.is_file());
    let kinds: Vec<_> = job.read_dir("/")?.iter().map(|entry| entry.kind).collect();
    assert_eq!(
        kinds,
        [
            Kind::Dir,
            Kind::Symlink,
            Kind::Symlink,
            Kind::Symlink,
            Kind::Symlink
        ]
    );
    let entry = &job.read_dir("/")?[1];
    assert!(entry.is_symlink() && !entry.is_dir() && !entry.is_file());
    assert_eq!(entry.file_type(), Kind::Symlink);
    job.commit()
}

#[test]
fn what_is_no_link_has_no_target() -> Result<()> {
    let tree = Tree::new()?;
    let job = tree.begin()?;
    make_links(&job)?;
    for (path, number) in [
        ("/", EINVAL),
        ("/d/f", EINVAL),
        ("/to_d/", EINVAL),
        ("/none", ENOENT),
        ("/to_f/x", ENOTDIR),
    ] {
        assert_eq!(errno(job.read_link(path)), Some(number), "{path}");
    }
    job.commit()
}

#[test]
fn targets_are_any_bytes_but_none() -> Result<()> {
    let tree = Tree::new()?;
    let job = tree.begin()?;
    let longest = "t".repeat(4095);
    job.symlink(&longest, "/longest")?;
    assert_eq!(job.read_link("/longest")?, Path::new(&longest));
    assert_eq!(job.symlink_metadata("/longest")?.len, 4095);
    let longer = longest.clone() + "t";
    assert_eq!(errno(job.symlink(longer, "/l")), Some(ENAMETOOLONG));
    assert_eq!(errno(job.symlink("", "/l")), Some(ENOENT));
    assert_eq!(job.symlink("a\0b", "/l"), Err(Error::Invalid));
    assert_eq!(job.read_link("/a\0b"), Err(Error::Invalid));
    let exists = job.symlink("x", "/longest").unwrap_err();
    assert_eq!(exists.raw_os_error(), Some(EEXIST));
    assert_eq!(exists.paths(), [Path::new("x"), Path::new("/longest")]);
    job.commit()
}

#[test]
fn links_that_lead_to_each_other_are_told() -> Result<()> {
    let tree = Tree::new()?;
    let job = tree.begin()?;
    make_links(&job)?;
    let looped = job.metadata("/loop").unwrap_err();
    assert_eq!(looped.raw_os_error(), Some(ELOOP));
    assert_eq!(
        looped.kind(),
        io::Error::from_raw_os_error(ELOOP).kind(),
        "as the system has it"
    );
    assert_eq!(errno(job.exists("/loop")), Some(ELOOP));
    assert_eq!(errno(job.read_dir("/loop/x")), Some(ELOOP));
    assert!(job.symlink_metadata("/loop")?.is_symlink());
    job.commit()
}

#[test]
fn step_takes_its_links_with_it() -> Result<()> {
    let tree = Tree::new()?;
    let job = tree.begin()?;
    make_links(&job)?;
    let step = job.begin()?;
    step.symlink("x", "/new")?;
    step.remove_file("/to_f")?;
    step.rename("/to_d", "/moved")?;
    drop(step);
    assert_eq!(errno(job.symlink_metadata("/new")), Some(ENOENT));
    assert_eq!(job.read_link("/to_f")?, Path::new("d/f"));
    assert_eq!(job.read_link("/to_d")?, Path::new("/d"));
    job.commit()
}

#[test]
fn directories_are_removed_and_what_links_lead_to_stays() -> Result<()> {
    let tree = Tree::new()?;
    let job = tree.begin()?;
    make_links(&job)?;
    job.create_dir("/e")?;
    job.symlink("../d", "/e/to_d")?;
    job.symlink("to_d", "/e/to_to_d")?;
    let told: Vec<_> = job
        .walk("/e")?
        .map(|place| place.map(|place| (place.path, place.kind)))
        .collect::<Result<_>>()?;
    assert_eq!(
        told,
        [
            (PathBuf::from("/e/to_d"), Kind::Symlink),
            (PathBuf::from("/e/to_to_d"), Kind::Symlink)
        ]
    );
    job.remove_dir_all("/e")?;
    job.remove_dir_all("/to_d")?;
    assert_eq!(job.read("/d/f")?, b"four");
    assert_eq!(errno(job.symlink_metadata("/to_d")), Some(ENOENT));
    job.commit()
}

#[test]
fn directories_above_lead_through_links() -> Result<()> {
    let tree = Tree::new()?;
    let job = tree.begin()?;
    make_links(&job)?;
    job.create_dir_all("/to_d/x/y")?;
    assert!(job.metadata("/d/x/y")?.is_dir());
    job.create_dir_all("/to_d")?;
    for path in ["/to_none", "/to_none/x"] {
        assert_eq!(errno(job.create_dir_all(path)), Some(EEXIST), "{path}");
    }
    assert_eq!(job.copy("/to_f", "/to_none")?, 4);
    assert_eq!(job.read("/none")?, b"four");
    assert_eq!(job.copy("/d/f", "/to_f")?, 4, "they are the same file");
    job.commit()
}

/// A folder of the disk, which is removed at the end.
struct Folder(PathBuf);

impl Folder {
    fn new(name: &str) -> io::Result<Folder> {
        let path = env::temp_dir().join(format!("nuzolged-{name}-{}", process::id()));
        fs::create_dir(&path)?;
        Ok(Folder(path.canonicalize()?))
    }

    fn at(&self, path: &str) -> PathBuf {
        self.0.join(path)
    }
}

impl Drop for Folder {
    fn drop(&mut self) {
        let _ = fs::remove_dir_all(&self.0);
    }
}

/// The outcome of a call: its result, or the error.
type Came = std::result::Result<String, ErrorKind>;

fn came_here<T: std::fmt::Debug>(result: Result<T>) -> Came {
    result
        .map(|value| format!("{value:?}"))
        .map_err(|error| error.kind())
}

fn came_there<T: std::fmt::Debug>(result: io::Result<T>) -> Came {
    result
        .map(|value| format!("{value:?}"))
        .map_err(|error| error.kind())
}

/// The outcomes of the calls that look, on a path of the tree.
fn looks_here(job: &Transaction<&Tree>, path: &str) -> Vec<Came> {
    let kind = |told: nuzolged::Metadata| (told.is_dir(), told.is_file(), told.is_symlink());
    let names = |told: Vec<nuzolged::Entry>| {
        let name = |entry: &nuzolged::Entry| (entry.name.clone(), entry.is_symlink());
        told.iter().map(name).collect::<Vec<_>>()
    };
    vec![
        came_here(job.metadata(path).map(kind)),
        came_here(job.symlink_metadata(path).map(kind)),
        came_here(job.read_link(path)),
        came_here(job.read_dir(path).map(names)),
        came_here(job.read_to_string(path)),
        came_here(job.canonicalize(path)),
    ]
}

/// And on one of a folder of the disk.
fn looks_there(folder: &Folder, path: &str) -> Vec<Came> {
    let path = folder.at(path);
    let whole = |told: PathBuf| Path::new("/").join(told.strip_prefix(&folder.0).unwrap());
    let kind = |told: fs::Metadata| (told.is_dir(), told.is_file(), told.is_symlink());
    let names = |told: fs::ReadDir| -> io::Result<Vec<_>> {
        let name = |entry: fs::DirEntry| Ok((entry.file_name(), entry.file_type()?.is_symlink()));
        let mut names = told
            .map(|entry| name(entry?))
            .collect::<io::Result<Vec<_>>>()?;
        names.sort();
        Ok(names)
    };
    vec![
        came_there(fs::metadata(&path).map(kind)),
        came_there(fs::symlink_metadata(&path).map(kind)),
        came_there(fs::read_link(&path)),
        came_there(fs::read_dir(&path).and_then(names)),
        came_there(fs::read_to_string(&path)),
        came_there(fs::canonicalize(&path).map(whole)),
    ]
}

/// The same links on the disk, none of which leads out of the folder.
fn make_links_there(folder: &Folder) -> io::Result<()> {
    fs::create_dir(folder.at("d"))?;
    fs::write(folder.at("d/f"), "four")?;
    symlink("d", folder.at("to_d"))?;
    symlink("d/f", folder.at("to_f"))?;
    symlink("none", folder.at("to_none"))?;
    symlink("loop", folder.at("loop"))?;
    symlink("to_d/", folder.at("to_to_d"))?;
    symlink("../d/./f", folder.at("d/up"))
}

fn make_links_here(job: &Transaction<&Tree>) -> Result<()> {
    job.create_dir("d")?;
    job.write("d/f", "four")?;
    job.symlink("d", "to_d")?;
    job.symlink("d/f", "to_f")?;
    job.symlink("none", "to_none")?;
    job.symlink("loop", "loop")?;
    job.symlink("to_d/", "to_to_d")?;
    job.symlink("../d/./f", "d/up")
}

#[test]
fn links_lead_as_those_of_the_system_do() -> io::Result<()> {
    let (folder, tree) = (Folder::new("links")?, Tree::new()?);
    let job = tree.begin()?;
    make_links_there(&folder)?;
    make_links_here(&job)?;
    for path in [
        "d",
        "d/f",
        "to_d",
        "to_d/",
        "to_d/f",
        "to_f",
        "to_f/",
        "to_f/x",
        "to_none",
        "to_none/",
        "to_none/x",
        "loop",
        "loop/",
        "loop/x",
        "to_to_d",
        "to_to_d/f",
        "d/up",
        "to_to_d/up",
        "to_d/../to_d/up",
        "none",
    ] {
        assert_eq!(looks_here(&job, path), looks_there(&folder, path), "{path}");
    }
    Ok(())
}

#[test]
fn links_are_opened_as_std_opens_them() -> io::Result<()> {
    let (folder, tree) = (Folder::new("opened")?, Tree::new()?);
    let job = tree.begin()?;
    make_links_there(&folder)?;
    make_links_here(&job)?;
    for path in ["to_f", "to_none", "loop", "to_to_d/f", "d/up"] {
        for is_new in [true, false] {
            let here = job.open(
                path,
                OpenOptions::new()
                    .write(true)
                    .create(!is_new)
                    .create_new(is_new),
            );
            let there = fs::OpenOptions::new()
                .write(true)
                .create(!is_new)
                .create_new(is_new)
                .open(folder.at(path));
            assert_eq!(
                came_here(here.map(|_| ())),
                came_there(there.map(|_| ())),
                "{path}"
            );
        }
    }
    assert!(job.symlink_metadata("none")?.is_file() && folder.at("none").is_file());
    Ok(())
}
