//! The folder for inputs and outputs, and its files.

use std::fs::{self, File};
use std::path::{Path, PathBuf};
use std::{env, process};

/// A temporary folder that is removed at the end.
pub struct Room {
    folder: PathBuf,
}

impl Room {
    /// The name tells the rooms of one program apart.
    pub fn new(name: &str) -> Result<Room, String> {
        let folder = env::temp_dir().join(format!("bench-{name}-{}", process::id()));
        fs::create_dir(&folder).map_err(|fault| told(&folder, fault))?;
        Ok(Room { folder })
    }

    fn file(&self, name: &str) -> PathBuf {
        self.folder.join(name)
    }

    /// What a program is given on standard input.
    pub fn input(&self) -> PathBuf {
        self.file("input")
    }

    /// What a program writes to standard output.
    pub fn output(&self) -> PathBuf {
        self.file("output")
    }

    /// What a program, or the one that counts its instructions, writes to standard error.
    pub fn told(&self) -> PathBuf {
        self.file("told")
    }
}

impl Drop for Room {
    fn drop(&mut self) {
        let _ = fs::remove_dir_all(&self.folder);
    }
}

pub fn write(path: &Path, bytes: &[u8]) -> Result<(), String> {
    fs::write(path, bytes).map_err(|fault| told(path, fault))
}

/// A file to be read from.
pub fn opened(path: &Path) -> Result<File, String> {
    File::open(path).map_err(|fault| told(path, fault))
}

/// A file to be written to, with nothing in it.
pub fn emptied(path: &Path) -> Result<File, String> {
    File::create(path).map_err(|fault| told(path, fault))
}

fn told(path: &Path, fault: std::io::Error) -> String {
    format!("{}: {fault}", path.display())
}

#[cfg(test)]
mod tests {
    use super::*;

    #[test]
    fn the_folder_is_removed_at_the_end() {
        let room = Room::new("removed").unwrap();
        let file = room.input();
        write(&file, b"x").unwrap();
        assert!(file.exists());
        drop(room);
        assert!(!file.exists());
    }

    #[test]
    fn a_missing_file_is_told() {
        assert!(opened(Path::new("/nowhere/at/all"))
            .unwrap_err()
            .starts_with("/nowhere/at/all: "));
    }
}
