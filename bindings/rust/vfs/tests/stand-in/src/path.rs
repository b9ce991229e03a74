//! Paths of a file system, and the facts that it returns of them.

use crate::{FileSystem, VfsResult};
use std::io::{Read, Seek, Write};
use std::sync::Arc;
use std::time::SystemTime;

pub trait SeekAndRead: Seek + Read {}

impl<T: Seek + Read> SeekAndRead for T {}

pub trait SeekAndWrite: Seek + Write {}

impl<T: Seek + Write> SeekAndWrite for T {}

#[derive(Clone, Copy, Debug, PartialEq, Eq)]
pub enum VfsFileType {
    File,
    Directory,
}

#[derive(Debug)]
pub struct VfsMetadata {
    pub file_type: VfsFileType,
    pub len: u64,
    pub created: Option<SystemTime>,
    pub modified: Option<SystemTime>,
    pub accessed: Option<SystemTime>,
}

/// A path with its file system.
#[derive(Clone, Debug)]
pub struct VfsPath {
    path: String,
    fs: Arc<dyn FileSystem>,
}

impl VfsPath {
    pub fn new<F: FileSystem>(filesystem: F) -> VfsPath {
        let (path, fs) = (String::new(), Arc::new(filesystem));
        VfsPath { path, fs }
    }

    pub fn join(&self, path: impl AsRef<str>) -> VfsResult<VfsPath> {
        let path = format!("{}/{}", self.path, path.as_ref());
        let fs = Arc::clone(&self.fs);
        Ok(VfsPath { path, fs })
    }

    pub fn create_dir(&self) -> VfsResult<()> {
        let made = self.fs.create_dir(&self.path);
        made.map_err(|error| error.with_path(&self.path))
    }

    pub fn create_file(&self) -> VfsResult<Box<dyn SeekAndWrite + Send>> {
        let made = self.fs.create_file(&self.path);
        made.map_err(|error| error.with_path(&self.path))
    }
}
