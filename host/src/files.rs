//! Files that are written whole or not at all.

use std::ffi::OsString;
use std::fs::{self, File, OpenOptions};
use std::io::{self, Write};
use std::os::unix::fs::MetadataExt;
use std::path::{Path, PathBuf};
use std::process;

/// What a path leads to: a file that is there, by its number, or the place of one that is not.
#[derive(PartialEq, Eq, Hash)]
pub enum Identity {
    There { device: u64, number: u64 },
    Absent(PathBuf),
}

/// What a path leads to; two that lead to one file, by whatever names or links, have one identity.
pub fn identity(path: &Path) -> io::Result<Identity> {
    match fs::metadata(path) {
        Ok(found) => Ok(Identity::There {
            device: found.dev(),
            number: found.ino(),
        }),
        Err(error) if error.kind() == io::ErrorKind::NotFound => {
            let folder = fs::canonicalize(folder_of(path))?;
            Ok(Identity::Absent(
                folder.join(path.file_name().unwrap_or_default()),
            ))
        }
        Err(error) => Err(error),
    }
}

fn folder_of(path: &Path) -> &Path {
    match path.parent() {
        Some(folder) if folder != Path::new("") => folder,
        _ => Path::new("."),
    }
}

/// A file written beside its place, which it takes by `put`; dropped before, it is gone.
pub struct Draft {
    beside: PathBuf,
    place: PathBuf,
}

impl Draft {
    /// Writes the bytes to a new file in the folder of `place`.
    pub fn write(place: &Path, bytes: &[u8]) -> io::Result<Draft> {
        let name = place
            .file_name()
            .ok_or_else(|| io::Error::new(io::ErrorKind::InvalidInput, "not the name of a file"))?;
        let (mut file, beside) = new_file(folder_of(place), name.to_os_string())?;
        let draft = Draft {
            beside,
            place: place.to_path_buf(),
        };
        file.write_all(bytes)?;
        file.sync_all()?;
        Ok(draft)
    }

    /// Renames it to its place, in one step.
    pub fn put(self) -> io::Result<()> {
        fs::rename(&self.beside, &self.place)
    }
}

impl Drop for Draft {
    fn drop(&mut self) {
        // Once it was put, nothing stands there any more.
        let _ = fs::remove_file(&self.beside);
    }
}

/// A file of a name that no other has.
fn new_file(folder: &Path, mut name: OsString) -> io::Result<(File, PathBuf)> {
    name.push(format!(".{}", process::id()));
    let mut taken = 0;
    loop {
        let mut tried = name.clone();
        tried.push(format!(".{taken}.new"));
        let path = folder.join(tried);
        match OpenOptions::new().write(true).create_new(true).open(&path) {
            Ok(file) => return Ok((file, path)),
            Err(error) if error.kind() == io::ErrorKind::AlreadyExists => taken += 1,
            Err(error) => return Err(error),
        }
    }
}
