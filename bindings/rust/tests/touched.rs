//! The paths that a transaction has touched.

use nuzolged::{Error, Kind, Result, Touched, Transaction, Tree};
use std::path::{Path, PathBuf};

/// A tree with /d, /d/e, /d/f and /d/g h.
fn made() -> Result<Tree> {
    let tree = Tree::new()?;
    let job = tree.begin()?;
    job.create_dir_all("/d/e")?;
    job.write("/d/f", "bytes")?;
    job.write("/d/g h", "more")?;
    job.commit()?;
    Ok(tree)
}

/// How a path was touched, and the kind of what is there.
fn told(job: &Transaction<&Tree>, path: &str) -> Result<(Touched, Option<Kind>)> {
    let touched = job.touched()?[Path::new(path)];
    Ok((touched, touched.kind))
}

#[test]
fn each_path_is_told() -> Result<()> {
    let tree = made()?;
    let job = tree.begin()?;
    assert!(job.touched()?.is_empty());
    job.read("/d/f")?;
    job.read_dir("/d/e")?;
    job.rename("/d/g h", "/d/i")?;
    assert!(!job.exists("/d/none/x")?);
    let touched = job.touched()?;
    let paths = ["/d", "/d/e", "/d/f", "/d/g h", "/d/i", "/d/none"].map(PathBuf::from);
    assert!(touched.keys().eq(&paths), "{touched:?}");
    let (absent, kind) = told(&job, "/d/none")?;
    assert!(absent.read && absent.absent && !absent.written && kind.is_none());
    let (gone, kind) = told(&job, "/d/g h")?;
    assert!(gone.written && !gone.absent && kind.is_none());
    let (listed, kind) = told(&job, "/d/e")?;
    assert!(listed.read && listed.listed && !listed.written && kind == Some(Kind::Dir));
    assert_eq!(told(&job, "/d/i")?.1, Some(Kind::File));
    Ok(())
}

#[test]
fn steps_hand_up_what_they_touched() -> Result<()> {
    let tree = made()?;
    let job = tree.begin()?;
    let step = job.begin()?;
    step.symlink("f", "/d/l")?;
    assert_eq!(job.manifest()?, "");
    assert_eq!(step.manifest()?, "/d read dir\n/d/l written link\n");
    step.commit()?;
    drop(job.begin()?.create_dir("/gone"));
    assert_eq!(job.manifest()?, "/d read dir\n/d/l written link\n");
    Ok(())
}

#[test]
fn long_texts_are_whole() -> Result<()> {
    let tree = Tree::new()?;
    let job = tree.begin()?;
    let names: Vec<String> = (0..500).map(|number| format!("/{number:0200}")).collect();
    for name in &names {
        assert!(!job.exists(name)?);
    }
    let manifest = job.manifest()?;
    let lines: Vec<String> = names
        .iter()
        .map(|name| format!("{name} absent none"))
        .collect();
    assert!(manifest.lines().eq(&lines));
    Ok(())
}

#[test]
fn depfile_has_what_was_read() -> Result<()> {
    let tree = made()?;
    let job = tree.begin()?;
    job.read("/d/g h")?;
    job.write("/out", "made")?;
    let target = Path::new("a.o");
    assert_eq!(
        job.depfile(Some(target), "/t/")?,
        b"a.o: \\\n  /t/d/g\\ h\n"
    );
    assert_eq!(job.depfile(None, "")?, b"/out: \\\n  /d/g\\ h\n");
    for target in ["a\nb", "a=b", "", "a\0b"] {
        assert_eq!(job.depfile(Some(target.as_ref()), "/"), Err(Error::Invalid));
    }
    Ok(())
}
