//! A folder with the files of a case, for a program to be run in.

use crate::case::{File, Holds};
use std::collections::BTreeSet;
use std::ffi::OsStr;
use std::os::unix::ffi::OsStrExt;
use std::path::{Component, Path, PathBuf};
use std::sync::atomic::{AtomicUsize, Ordering};
use std::{env, fs, io, mem, process};

/// A folder among the system's temporary files, which is there until this is dropped.
pub struct Folder {
    pub path: PathBuf,
}

impl Folder {
    /// A new folder with some files; what is there by several names is written once.
    pub fn with(files: &[File]) -> Result<Folder, String> {
        let told = |fault| format!("a folder for files in {}: {fault}", env::temp_dir().display());
        let folder = Folder { path: made().map_err(told)? };
        let holds: BTreeSet<(PathBuf, &Holds)> = files.iter().map(|file| (file.path(), &file.holds)).collect();
        holds.into_iter().try_for_each(|(path, holds)| holds.write(&folder.path.join(path))).map_err(told)?;
        Ok(folder)
    }

    /// Leaves it there, and says where.
    pub fn kept(self) -> PathBuf {
        let path = self.path.clone();
        mem::forget(self);
        path
    }
}

impl Drop for Folder {
    fn drop(&mut self) {
        let _ = fs::remove_dir_all(&self.path);
    }
}

/// How many folders were tried.
static TRIED: AtomicUsize = AtomicUsize::new(0);

/// Makes a folder that was not there.
fn made() -> io::Result<PathBuf> {
    loop {
        let number = TRIED.fetch_add(1, Ordering::Relaxed);
        let path = env::temp_dir().join(format!("compare-{}-files-{number}", process::id()));
        match fs::create_dir(&path) {
            Err(fault) if fault.kind() == io::ErrorKind::AlreadyExists => {}
            done => return done.map(|()| path),
        }
    }
}

impl File {
    /// The name as an argument.
    pub fn argument(&self) -> &OsStr {
        OsStr::from_bytes(&self.name)
    }

    /// The path in the folder. A name may be longer than a path may be.
    fn path(&self) -> PathBuf {
        Path::new(self.argument()).components().filter(|part| matches!(part, Component::Normal(_))).collect()
    }
}

impl Holds {
    /// Makes what is there by a path, and the folders on the way.
    fn write(&self, path: &Path) -> io::Result<()> {
        match self {
            Holds::Nothing => Ok(()),
            Holds::Folder => fs::create_dir_all(path),
            Holds::Bytes(bytes) => {
                fs::create_dir_all(path.parent().expect("it is in the folder"))?;
                fs::write(path, bytes)
            }
        }
    }
}

#[cfg(test)]
mod tests {
    use super::*;

    fn file(name: &[u8], holds: Holds) -> File {
        File { name: name.to_vec(), holds }
    }

    #[test]
    fn files_are_there_by_their_names() {
        let long = [&b"./".repeat(2_047)[..], b"x"].concat();
        let bytes = |byte| Holds::Bytes(vec![byte]);
        let files = [
            file(b"a\n\xFF b", bytes(1)),
            file(&long, bytes(2)),
            file(b"in/a/b", bytes(3)),
            file(b"c", Holds::Folder),
            file(b"d", Holds::Nothing),
        ];
        let folder = Folder::with(&files).unwrap();
        let read = |at: usize| fs::read(folder.path.join(files[at].argument())).ok();
        assert_eq!([0, 2, 4].map(read), [Some(vec![1]), Some(vec![3]), None]);
        assert_eq!((fs::read(folder.path.join("x")).ok(), folder.path.join("c").is_dir()), (Some(vec![2]), true));
        assert_eq!(fs::read_dir(&folder.path).unwrap().count(), 4);
    }

    #[test]
    fn a_folder_goes_and_is_kept() {
        let gone = Folder::with(&[file(b"a", Holds::Folder)]).unwrap().path.clone();
        let kept = Folder::with(&[file(b"a", Holds::Folder)]).unwrap().kept();
        assert_eq!((gone.exists(), kept.exists()), (false, true));
        fs::remove_dir_all(kept).unwrap();
    }
}
