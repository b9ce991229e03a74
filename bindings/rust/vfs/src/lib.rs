#![doc = include_str!("../README.md")]
#![warn(missing_docs)]

use nuzolged::{Error, FileTimes, OpenOptions, OwnedFile, Shared, Transaction};
use std::io;
use std::sync::Arc;
use std::time::SystemTime;
use vfs::error::VfsErrorKind;
use vfs::{FileSystem, SeekAndRead, SeekAndWrite};
use vfs::{VfsError, VfsFileType, VfsMetadata, VfsResult};

/// The file system of a transaction. Each clone is of the same transaction.
///
/// It shares its transaction with others, and so does each file that it opens. The transaction can
/// be committed when nobody else has it: by [`Arc::try_unwrap`]. It is aborted when its last owner
/// drops it.
#[derive(Clone, Debug)]
pub struct TransactionFS {
    transaction: Arc<Transaction<Shared>>,
}

impl TransactionFS {
    /// Returns the file system of this transaction, which may be a step.
    pub fn new(transaction: Arc<Transaction<Shared>>) -> TransactionFS {
        TransactionFS { transaction }
    }

    /// Returns the transaction, which has calls for what vfs does not know: links, modes and owners.
    pub fn transaction(&self) -> &Arc<Transaction<Shared>> {
        &self.transaction
    }

    fn is_dir(&self, path: &str) -> bool {
        let metadata = self.transaction.metadata(in_tree(path));
        metadata.map_or(false, |metadata| metadata.is_dir())
    }

    fn open(&self, path: &str, options: &OpenOptions) -> VfsResult<OwnedFile<Shared>> {
        let opened = self.transaction.open_owned(in_tree(path), options);
        opened.map_err(of_vfs)
    }
}

impl FileSystem for TransactionFS {
    /// Fails if a name is not UTF-8.
    fn read_dir(&self, path: &str) -> VfsResult<Box<dyn Iterator<Item = String> + Send>> {
        let entries = self.transaction.read_dir(in_tree(path)).map_err(of_vfs)?;
        let names = entries.into_iter().map(|entry| entry.name.into_string());
        let names = names.collect::<Result<Vec<_>, _>>();
        let not_text = |name| VfsErrorKind::Other(format!("the name {name:?} is not UTF-8"));
        Ok(Box::new(names.map_err(not_text)?.into_iter()))
    }

    fn create_dir(&self, path: &str) -> VfsResult<()> {
        let made = self.transaction.create_dir(in_tree(path));
        made.map_err(|error| match error.kind() {
            io::ErrorKind::AlreadyExists if self.is_dir(path) => {
                VfsErrorKind::DirectoryExists.into()
            }
            io::ErrorKind::AlreadyExists => VfsErrorKind::FileExists.into(),
            _ => of_vfs(error),
        })
    }

    fn open_file(&self, path: &str) -> VfsResult<Box<dyn SeekAndRead + Send>> {
        let file = self.open(path, OpenOptions::new().read(true))?;
        Ok(Box::new(file))
    }

    fn create_file(&self, path: &str) -> VfsResult<Box<dyn SeekAndWrite + Send>> {
        let options = *OpenOptions::new().write(true).create(true).truncate(true);
        Ok(Box::new(self.open(path, &options)?))
    }

    fn append_file(&self, path: &str) -> VfsResult<Box<dyn SeekAndWrite + Send>> {
        let file = self.open(path, OpenOptions::new().append(true))?;
        Ok(Box::new(file))
    }

    /// Follows a symbolic link. A file has a time if one was set for its bytes.
    fn metadata(&self, path: &str) -> VfsResult<VfsMetadata> {
        let metadata = self.transaction.metadata(in_tree(path)).map_err(of_vfs)?;
        let (file_type, len) = match metadata.is_dir() {
            true => (VfsFileType::Directory, 0),
            false => (VfsFileType::File, metadata.len),
        };
        Ok(VfsMetadata {
            file_type,
            len,
            created: None,
            modified: metadata.modified,
            accessed: None,
        })
    }

    fn set_modification_time(&self, path: &str, time: SystemTime) -> VfsResult<()> {
        let times = FileTimes::new().set_modified(time);
        let set = self.transaction.set_times(in_tree(path), times);
        set.map_err(of_vfs)
    }

    fn exists(&self, path: &str) -> VfsResult<bool> {
        self.transaction.exists(in_tree(path)).map_err(of_vfs)
    }

    fn remove_file(&self, path: &str) -> VfsResult<()> {
        self.transaction.remove_file(in_tree(path)).map_err(of_vfs)
    }

    fn remove_dir(&self, path: &str) -> VfsResult<()> {
        self.transaction.remove_dir(in_tree(path)).map_err(of_vfs)
    }

    fn copy_file(&self, src: &str, dest: &str) -> VfsResult<()> {
        let copied = self.transaction.copy(in_tree(src), in_tree(dest));
        copied.map(|_| ()).map_err(of_vfs)
    }

    fn move_file(&self, src: &str, dest: &str) -> VfsResult<()> {
        let moved = self.transaction.rename(in_tree(src), in_tree(dest));
        moved.map_err(of_vfs)
    }

    fn move_dir(&self, src: &str, dest: &str) -> VfsResult<()> {
        self.move_file(src, dest)
    }
}

/// A path of vfs, whose root is the empty path, as one of a tree.
fn in_tree(path: &str) -> &str {
    match path {
        "" => "/",
        _ => path,
    }
}

/// An error of vfs. One without an error number, as of a call that waits, is inside its io::Error,
/// where [`Error::inside`] finds it.
fn of_vfs(error: Error) -> VfsError {
    match error {
        Error::Invalid => VfsErrorKind::InvalidPath.into(),
        error => VfsErrorKind::IoError(error.into()).into(),
    }
}
