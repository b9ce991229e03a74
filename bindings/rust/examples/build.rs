//! build: builds the targets of a build file on a tree in memory, side by side.
//!
//!     build < FILE
//!
//! A line of FILE is a source and its text, a target and its inputs, or a comment:
//!
//!     /src/main.c = int main(void) { return 0; }
//!     /out/main.o: /src/main.c
//!     # nothing
//!
//! A target is made of its inputs, one after another, in a thread and a step of its own, after the
//! targets among its inputs that come before it. A step that fails leaves nothing behind, and what
//! needs its target is left out; the others stay.

use nuzolged::{Error, OpenOptions, Shared, Transaction, Tree};
use std::fmt;
use std::io::{self, Read, Write};
use std::path::Path;
use std::sync::{Condvar, Mutex};
use std::thread;
use std::time::Duration;

/// How long a step waits for the locks of others.
const LIMIT: Duration = Duration::from_secs(60);

/// The file to which each target adds its name.
const LOG: &str = "/log";

struct Target<'a> {
    path: &'a str,
    inputs: Vec<&'a str>,
}

#[derive(Default)]
struct Plan<'a> {
    sources: Vec<(&'a str, &'a str)>,
    targets: Vec<Target<'a>>,
}

impl<'a> Plan<'a> {
    /// The plan of a build file, or the line that is none of one.
    fn of(text: &'a str) -> Result<Plan<'a>, String> {
        let mut plan = Plan::default();
        for line in text
            .lines()
            .filter(|line| !line.is_empty() && !line.starts_with('#'))
        {
            if let Some(source) = line.split_once(" = ") {
                plan.sources.push(source);
            } else if let Some((path, inputs)) = line.split_once(": ") {
                plan.targets.push(Target {
                    path,
                    inputs: inputs.split(' ').collect(),
                });
            } else {
                return Err(format!("this is neither a source nor a target: {line}"));
            }
        }
        Ok(plan)
    }
}

/// The end of a target.
enum End {
    Built,
    Failed(io::Error),
    LeftOut(String),
}

impl fmt::Display for End {
    fn fmt(&self, f: &mut fmt::Formatter<'_>) -> fmt::Result {
        match self {
            End::Built => f.write_str("built"),
            End::Failed(error) => write!(f, "failed: {error}"),
            End::LeftOut(input) => write!(f, "left out, for want of {input}"),
        }
    }
}

/// The targets that have been made or not, as far as that is known.
struct Board {
    made: Mutex<Vec<Option<bool>>>,
    told: Condvar,
}

impl Board {
    fn tell(&self, target: usize, is_made: bool) {
        self.made.lock().expect("no step panics")[target] = Some(is_made);
        self.told.notify_all();
    }

    /// Waits until it is known whether a target has been made.
    fn is_made(&self, target: usize) -> bool {
        let made = self.made.lock().expect("no step panics");
        let known = self.told.wait_while(made, |made| made[target].is_none());
        known.expect("no step panics")[target] == Some(true)
    }
}

/// Builds all targets, each in a thread, and returns what became of each.
fn build_all(job: &Transaction<Shared>, targets: &[Target]) -> Vec<End> {
    let made = Mutex::new(targets.iter().map(|_| None).collect());
    let board = Board {
        made,
        told: Condvar::new(),
    };
    thread::scope(|threads| {
        let begin = |at| {
            threads.spawn({
                let board = &board;
                move || build(job, targets, at, board)
            })
        };
        let steps: Vec<_> = (0..targets.len()).map(begin).collect();
        steps
            .into_iter()
            .map(|step| step.join().expect("no step panics"))
            .collect()
    })
}

/// Builds a target when its inputs are made, and tells the others.
fn build(job: &Transaction<Shared>, targets: &[Target], at: usize, board: &Board) -> End {
    let (above, target) = (&targets[..at], &targets[at]);
    let is_missing = |input: &str| {
        let made_above = above.iter().position(|other| other.path == input);
        made_above.map_or(false, |at| !board.is_made(at))
    };
    let end = match target.inputs.iter().find(|input| is_missing(input)) {
        Some(input) => End::LeftOut(input.to_string()),
        None => match make(job, target) {
            Ok(()) => End::Built,
            Err(error) => End::Failed(error),
        },
    };
    board.tell(at, matches!(end, End::Built));
    end
}

/// Makes a target, in a step that is aborted if `?` leaves it.
fn make(job: &Transaction<Shared>, target: &Target) -> io::Result<()> {
    let step = job.begin()?;
    let mut output = step.open(target.path, OpenOptions::new().write(true).create_new(true))?;
    for input in &target.inputs {
        output.write_all(&step.read(input)?)?;
    }
    output.close()?;
    // (from here the other steps wait at this line, until this one has ended)
    let mut log = step.open(LOG, OpenOptions::new().append(true))?;
    writeln!(log, "{}", target.path)?;
    log.close()?;
    Ok(step.commit()?)
}

/// Makes the directories above a path, if they are missing.
fn make_parents(job: &Transaction<Shared>, path: &str) -> Result<(), Error> {
    let above = Path::new(path).parent().unwrap_or(Path::new("/"));
    job.create_dir_all(above)
}

/// Makes the sources and the directories of all files, with which the targets begin.
fn prepare(job: &Transaction<Shared>, plan: &Plan) -> Result<(), Error> {
    for (path, text) in &plan.sources {
        make_parents(job, path)?;
        job.write(path, format!("{text}\n").as_bytes())?;
    }
    for target in &plan.targets {
        make_parents(job, target.path)?;
    }
    job.write(LOG, b"")
}

/// Prints what became of each target, and what has been made.
fn report(job: &Transaction<Shared>, plan: &Plan, ends: &[End]) -> Result<(), Error> {
    for (target, end) in plan.targets.iter().zip(ends) {
        println!("{}: {end}", target.path);
    }
    let log = job.read(LOG)?;
    println!(
        "the log has {} lines",
        String::from_utf8_lossy(&log).lines().count()
    );
    for (target, end) in plan.targets.iter().zip(ends) {
        match end {
            End::Built => print_file(job, target.path)?,
            _ => assert!(
                job.metadata(target.path).is_err(),
                "a step that fails leaves nothing"
            ),
        }
    }
    Ok(())
}

fn print_file(job: &Transaction<Shared>, path: &str) -> Result<(), Error> {
    print!("--- {path}\n{}", String::from_utf8_lossy(&job.read(path)?));
    Ok(())
}

fn main() -> Result<(), Box<dyn std::error::Error>> {
    let mut text = String::new();
    io::stdin().read_to_string(&mut text)?;
    let plan = Plan::of(&text)?;
    let tree = Shared::new(Tree::new()?, LIMIT);
    let job = tree.begin()?;
    prepare(&job, &plan)?;
    let ends = build_all(&job, &plan.targets);
    report(&job, &plan, &ends)?;
    Ok(job.commit()?)
}
