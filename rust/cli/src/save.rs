//! Files that are written whole or not at all. Each is written beside its place under another name,
//! and takes its place once all of them are on the disk.

use std::fs::{self, OpenOptions};
use std::io::{self, Write};
use std::path::{Path, PathBuf};
use std::process;

use clap::Arg;

use crate::answer::Stop;
use crate::arguments;

pub const FORCE: &str = "force";

pub fn force() -> Arg {
    arguments::flag(FORCE, "Overwrite files that are there")
}

/// A file to write.
pub struct New<'b> {
    pub path: PathBuf,
    pub bytes: &'b [u8],
}

/// Writes all of the files, or leaves everything as it was.
pub fn all(files: &[New<'_>], force: bool) -> Result<(), Stop> {
    for file in files {
        may_write(&file.path, force)?;
    }
    let failed = |file: &New, error: io::Error| match error.kind() {
        io::ErrorKind::AlreadyExists => there(&file.path),
        _ => Stop::Bad(format!("can't write {}: {error}", file.path.display())),
    };
    let mut written = Vec::new();
    for file in files {
        written.push(write_beside(file).map_err(|error| failed(file, error))?);
    }
    let mut placed = Placed(Vec::new());
    for ((file, new), left) in files.iter().zip(&written).zip((0..files.len()).rev()) {
        // Nothing can fail after the last one, so what it overwrites is not kept.
        let put = placed.put(new, &file.path, force, left > 0);
        put.map_err(|error| failed(file, error))?;
    }
    placed.keep();
    Ok(())
}

/// Looks at the place of a file before anything is written. What can't be looked at can't be written
/// either, and the writing says why.
fn may_write(path: &Path, force: bool) -> Result<(), Stop> {
    match fs::symlink_metadata(path) {
        // A folder, a link or a device is not what was to be overwritten.
        Ok(old) if force && !old.is_file() => {
            let shown = path.display();
            Err(Stop::Bad(format!("{shown} is there, and is no plain file")))
        }
        Ok(_) if !force => Err(there(path)),
        _ => Ok(()),
    }
}

fn there(path: &Path) -> Stop {
    let shown = path.display();
    Stop::Bad(format!("{shown} is there; --force overwrites it"))
}

/// A file under a name that no one else has; it goes with this value.
struct Temporary(PathBuf);

impl Drop for Temporary {
    fn drop(&mut self) {
        // After a rename there is none.
        let _ = fs::remove_file(&self.0);
    }
}

/// Makes a file in the folder of `path`, in a way that fails where its name is taken.
fn beside<T>(path: &Path, make: impl Fn(&Path) -> io::Result<T>) -> io::Result<(Temporary, T)> {
    let mut number = 0;
    loop {
        let name = path.with_file_name(format!(".gillacorn-{}-{number}", process::id()));
        match make(&name) {
            Err(error) if error.kind() == io::ErrorKind::AlreadyExists => number += 1,
            made => return made.map(|made| (Temporary(name), made)),
        }
    }
}

fn write_beside(file: &New<'_>) -> io::Result<Temporary> {
    let create = |name: &Path| OpenOptions::new().write(true).create_new(true).open(name);
    let (temporary, mut out) = beside(&file.path, create)?;
    // Who may read the file stays as it was.
    if let Ok(old) = fs::metadata(&file.path) {
        out.set_permissions(old.permissions())?;
    }
    out.write_all(file.bytes)?;
    out.sync_all()?;
    Ok(temporary)
}

/// Another name for a file, if there is one.
fn second_name(path: &Path) -> io::Result<Option<Temporary>> {
    match beside(path, |name| fs::hard_link(path, name)) {
        Ok((name, ())) => Ok(Some(name)),
        Err(error) if error.kind() == io::ErrorKind::NotFound => Ok(None),
        Err(error) => Err(error),
    }
}

/// The files that have taken their place, each with what was there before. Unless all of them are
/// kept, what was there before takes its place again.
struct Placed(Vec<(PathBuf, Option<Temporary>)>);

impl Placed {
    fn put(&mut self, new: &Temporary, path: &Path, force: bool, keep: bool) -> io::Result<()> {
        let mut old = None;
        if force {
            if keep {
                old = second_name(path)?;
            }
            fs::rename(&new.0, path)?;
        } else {
            // Unlike a rename, it fails where a file has come in the meantime.
            fs::hard_link(&new.0, path)?;
        }
        self.0.push((path.into(), old));
        Ok(())
    }

    fn keep(mut self) {
        self.0.clear();
    }
}

impl Drop for Placed {
    fn drop(&mut self) {
        for (path, old) in self.0.drain(..).rev() {
            let _ = match old {
                Some(old) => fs::rename(&old.0, path),
                None => fs::remove_file(path),
            };
        }
    }
}
