//! Work that takes several calls, and how files are opened.

use nuzolged::{Error, Kind, OpenOptions, Result, Transaction, Tree};
use std::io::{ErrorKind, Read, Seek, SeekFrom, Write};
use std::path::{Path, PathBuf};
use std::{env, fs, io, process};

const ENOTDIR: i32 = 20;
const EISDIR: i32 = 21;

fn paths_of(job: &Transaction<&Tree>, path: &str) -> Result<Vec<String>> {
    let places = job.walk(path)?.collect::<Result<Vec<_>>>()?;
    let told = |place: &nuzolged::Place| place.path.display().to_string();
    Ok(places.iter().map(told).collect())
}

#[test]
fn directories_are_made_and_removed_with_all_below() -> Result<()> {
    let tree = Tree::new()?;
    let job = tree.begin()?;
    job.create_dir_all("/a/b/c")?;
    job.create_dir_all("a/b/d/")?;
    job.create_dir_all("/")?;
    job.write("/a/f", "")?;
    assert_eq!(
        paths_of(&job, "/")?,
        ["/a", "/a/b", "/a/b/c", "/a/b/d", "/a/f"]
    );
    let exists = job.create_dir_all("/a/f").unwrap_err();
    assert_eq!(exists.kind(), ErrorKind::AlreadyExists);
    assert_eq!(
        job.create_dir_all("/a/f/g").unwrap_err().raw_os_error(),
        Some(ENOTDIR)
    );
    job.remove_dir_all("/a/b")?;
    assert_eq!(paths_of(&job, "a")?, ["a/f"]);
    assert_eq!(
        job.remove_dir_all("/a/f").unwrap_err().raw_os_error(),
        Some(ENOTDIR)
    );
    let mut kinds = job.walk("/")?.map(|place| place.map(|place| place.kind));
    assert_eq!(kinds.next(), Some(Ok(Kind::Dir)));
    job.commit()
}

#[test]
fn files_are_copied_and_read_as_text() -> Result<()> {
    let tree = Tree::new()?;
    let job = tree.begin()?;
    job.write("/f", "täxt")?;
    assert_eq!(job.copy("/f", "/g")?, 5);
    assert_eq!(job.copy("/g", "g")?, 5);
    assert_eq!(job.read_to_string("/g")?, "täxt");
    job.write("/g", vec![0xff])?;
    assert_eq!(job.read_to_string("/g"), Err(Error::NotUtf8));
    assert!(job.exists("/g")? && !job.exists("/h")? && !job.exists("/g/h")?);
    assert!(job.metadata("/g")?.is_file() && job.read_dir("/")?[0].is_file());
    job.commit()
}

#[test]
fn files_are_read_and_written_by_those_who_share_them() -> io::Result<()> {
    let tree = Tree::new()?;
    let job = tree.begin()?;
    let options = *OpenOptions::new().read(true).write(true).create(true);
    let file = job.open("/f", &options)?;
    (&file).write_all(b"bytes")?;
    (&file).seek(SeekFrom::Start(1))?;
    let mut text = String::new();
    (&file).read_to_string(&mut text)?;
    assert_eq!((text.as_str(), file.path()), ("ytes", Path::new("/f")));
    file.close()?;
    Ok(job.commit()?)
}

/// A folder of the disk, which is removed at the end.
struct Folder(PathBuf);

impl Folder {
    fn new() -> io::Result<Folder> {
        let path = env::temp_dir().join(format!("nuzolged-options-{}", process::id()));
        fs::create_dir(&path)?;
        Ok(Folder(path))
    }
}

impl Drop for Folder {
    fn drop(&mut self) {
        let _ = fs::remove_dir_all(&self.0);
    }
}

/// The outcome of opening, and the bytes of the file that was there, after it.
type Opened = (std::result::Result<(), ErrorKind>, Vec<u8>);

/// The six options of a number below 64, in the order of its bits.
fn bits(number: u32) -> [bool; 6] {
    [0, 1, 2, 3, 4, 5].map(|bit| number >> bit & 1 == 1)
}

fn opened_by_std(top: &Path, name: &str, options: [bool; 6]) -> io::Result<Opened> {
    let [read, write, append, truncate, create, create_new] = options;
    fs::write(top.join("there"), "old")?;
    fs::remove_file(top.join("new")).or_else(|error| match error.kind() {
        ErrorKind::NotFound => Ok(()),
        _ => Err(error),
    })?;
    let opened = fs::OpenOptions::new()
        .read(read)
        .write(write)
        .append(append)
        .truncate(truncate)
        .create(create)
        .create_new(create_new)
        .open(top.join(name));
    // (std opens a directory for reading, and here none is opened)
    let told = match opened {
        Ok(_) if name == "dir" => Err(io::Error::from_raw_os_error(EISDIR).kind()),
        Ok(_) => Ok(()),
        Err(error) => Err(error.kind()),
    };
    Ok((told, fs::read(top.join("there"))?))
}

fn opened_here(name: &str, options: [bool; 6]) -> Result<Opened> {
    let [read, write, append, truncate, create, create_new] = options;
    let tree = Tree::new()?;
    let job = tree.begin()?;
    job.create_dir("/dir")?;
    job.write("/there", "old")?;
    let options = *OpenOptions::new()
        .read(read)
        .write(write)
        .append(append)
        .truncate(truncate)
        .create(create)
        .create_new(create_new);
    let opened = job.open(Path::new("/").join(name), &options).map(|_| ());
    let told = opened.map_err(|error| error.kind());
    Ok((told, job.read("/there")?))
}

#[test]
fn files_are_opened_as_std_opens_them() -> io::Result<()> {
    let top = Folder::new()?;
    fs::create_dir(top.0.join("dir"))?;
    for number in 0..64 {
        for name in ["there", "new", "dir"] {
            let options = bits(number);
            assert_eq!(
                opened_here(name, options)?,
                opened_by_std(&top.0, name, options)?,
                "{name} by {options:?}"
            );
        }
    }
    Ok(())
}
