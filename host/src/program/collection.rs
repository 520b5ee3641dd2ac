//! The files of a collection: what a folder and those below it hold.

use std::ffi::OsStr;
use std::fs::{self, DirEntry, FileType};
use std::io;
use std::os::unix::ffi::OsStrExt;
use std::path::{Path, PathBuf};

/// What a folder and those below it hold.
#[derive(Default)]
pub struct Collection {
    /// The files of lists, and the folders that can't be read, in order of path.
    pub members: Vec<Member>,
    /// How many other files there are.
    pub others: usize,
}

/// A file of a list; or a folder that can't be read, and why.
pub struct Member {
    pub path: PathBuf,
    pub trouble: Option<io::Error>,
}

impl Collection {
    /// Looks through a folder and those below it: a file whose name ends in `.bin` is a list's. A link to a folder is not
    /// followed, since it may lead back.
    ///
    /// # Errors
    /// Where the folder itself can't be read.
    pub fn of(folder: &Path) -> io::Result<Collection> {
        let mut collection = Collection::default();
        let mut folders = Vec::new();
        collection.add_folder(folder, &mut folders)?;
        while let Some(folder) = folders.pop() {
            if let Err(error) = collection.add_folder(&folder, &mut folders) {
                collection.members.push(Member { path: folder, trouble: Some(error) });
            }
        }
        collection.members.sort_by(|a, b| a.path.cmp(&b.path));
        Ok(collection)
    }

    /// Takes in what stands in a folder, and puts the folders there on the pile.
    fn add_folder(&mut self, folder: &Path, folders: &mut Vec<PathBuf>) -> io::Result<()> {
        for entry in fs::read_dir(folder)? {
            let entry = entry?;
            let path = entry.path();
            match entry.file_type() {
                Err(error) => self.members.push(Member { path, trouble: Some(error) }),
                Ok(kind) if kind.is_dir() => folders.push(path),
                Ok(kind) if is_list(&entry, kind) => self.members.push(Member { path, trouble: None }),
                Ok(_) => self.others += 1,
            }
        }
        Ok(())
    }
}

/// Whether an entry that is no folder is a list's file, by its name; a link to a folder is none.
fn is_list(entry: &DirEntry, kind: FileType) -> bool {
    ends_as_list(&entry.file_name()) && !(kind.is_symlink() && entry.path().is_dir())
}

fn ends_as_list(name: &OsStr) -> bool {
    name.as_bytes().ends_with(b".bin")
}
