//! rounds: how much time of the processor the rounds of compare.py take in Rust.
//!
//!     rounds WAY COUNT [FOLDER]
//!
//! WAY is library, shared (a tree for threads, of which there is one) or system (in FOLDER, which
//! is empty). The output is the time in seconds.

use nuzolged::{OpenOptions, Reach, Result, Shared, Transaction, Tree};
use std::io::{Read, Write};
use std::time::Duration;
use std::{env, fs, io, process};

const DATA: [u8; 100] = [b'x'; 100];

fn rounds_of_tree<R: Reach>(job: &Transaction<R>, count: u32) -> Result<()> {
    let mut room = [0; 4096];
    for number in 0..count {
        let folder = format!("/{number}");
        let (file, name) = (format!("{folder}/file"), format!("{folder}/name"));
        job.create_dir(&folder)?;
        let mut made = job.open(&file, OpenOptions::new().write(true).create_new(true))?;
        made.write_all(&DATA).expect("there is room");
        made.close()?;
        assert_eq!(job.metadata(&file)?.len, 100);
        let mut read = job.open(&file, OpenOptions::new().read(true))?;
        assert_eq!(read.read(&mut room).expect("it can be read"), 100);
        read.close()?;
        job.rename(&file, &name)?;
        assert_eq!(job.read_dir(&folder)?.len(), 1);
    }
    Ok(())
}

fn by_library(count: u32) -> Result<()> {
    let tree = Tree::new()?;
    let job = tree.begin()?;
    rounds_of_tree(&job, count)?;
    job.commit()
}

fn by_shared(count: u32) -> Result<()> {
    let tree = Shared::new(Tree::new()?, Duration::from_secs(1));
    let job = tree.begin()?;
    rounds_of_tree(&job, count)?;
    job.commit()
}

fn by_system(top: &str, count: u32) -> io::Result<()> {
    let mut room = [0; 4096];
    for number in 0..count {
        let folder = format!("{top}/{number}");
        let (file, name) = (format!("{folder}/file"), format!("{folder}/name"));
        fs::create_dir(&folder)?;
        let mut made = fs::File::options().write(true).create_new(true).open(&file)?;
        made.write_all(&DATA)?;
        drop(made);
        assert_eq!(fs::metadata(&file)?.len(), 100);
        assert_eq!(fs::File::open(&file)?.read(&mut room)?, 100);
        fs::rename(&file, &name)?;
        assert_eq!(fs::read_dir(&folder)?.count(), 1);
    }
    Ok(())
}

/// The time of the processor that this thread has had so far, in nanoseconds.
fn used() -> io::Result<u64> {
    let told = fs::read_to_string("/proc/self/schedstat")?;
    let first = told.split(' ').next().and_then(|word| word.parse().ok());
    first.ok_or_else(|| io::ErrorKind::InvalidData.into())
}

fn main() -> std::result::Result<(), Box<dyn std::error::Error>> {
    let words: Vec<String> = env::args().skip(1).collect();
    let begun = used()?;
    match words.iter().map(String::as_str).collect::<Vec<_>>()[..] {
        ["library", count, ..] => by_library(count.parse()?)?,
        ["shared", count, ..] => by_shared(count.parse()?)?,
        ["system", count, top] => by_system(top, count.parse()?)?,
        _ => process::exit(2),
    }
    println!("{:.6}", (used()? - begun) as f64 / 1e9);
    Ok(())
}
