//! A file that appears whole or not at all.
//!
//! It is written beside the one that is asked for, and gets that name when it
//! is whole. A link is followed. What is no plain file, such as a device or a
//! named pipe, is written to.

use std::collections::hash_map::RandomState;
use std::ffi::OsStr;
use std::fs::{self, File, Metadata, OpenOptions, Permissions};
use std::hash::{BuildHasher, Hasher};
use std::io::{self, BufWriter, Write};
use std::os::unix::fs::{MetadataExt, OpenOptionsExt, PermissionsExt};
use std::os::unix::io::AsRawFd;
use std::path::{Path, PathBuf};

use super::problem::{self, Problem};

/// What the names of parts begin and end with, so that they are known.
const PART_START: &str = ".solkverva-";
const PART_END: &str = ".part";

/// Names that are tried before it is given up.
const TRIES: usize = 64;
/// Links that lead to one another, as many as the system follows.
const LINKS: usize = 40;

/// Only its owner may read what is to take the place of another file, until it
/// has that file's permissions.
const OWN: u32 = 0o600;
/// A new file, less what the umask takes.
const NEW: u32 = 0o666;

extern "C" {
    /// Of the C library: 0 where the file is locked now.
    fn flock(descriptor: i32, operation: i32) -> i32;
    /// Of the C library: 0 where the file has this owner and group now.
    fn fchown(descriptor: i32, owner: u32, group: u32) -> i32;
}

/// Alone, and without waiting.
const LOCK_ALONE_NOW: i32 = 2 | 4;
/// Leaves an owner as it is.
const SAME: u32 = u32::MAX;

pub fn write_whole(
    target: &OsStr,
    write: impl FnOnce(&mut dyn Write) -> io::Result<()>,
) -> Result<(), Problem> {
    let path = Path::new(target);
    let done = match fs::metadata(path) {
        Ok(about) if about.is_file() => {
            fs::canonicalize(path).and_then(|place| replace(&place, Some(&about), write))
        }
        Ok(about) if about.is_dir() => Err(io::Error::new(
            io::ErrorKind::Other,
            "is a folder, expected a file's name",
        )),
        Ok(_) => {
            let opened = OpenOptions::new().write(true).open(path);
            opened.and_then(|file| write_to(&file, write))
        }
        Err(error) if error.kind() == io::ErrorKind::NotFound => {
            followed(path).and_then(|place| replace(&place, None, write))
        }
        Err(error) => Err(error),
    };
    done.map_err(|error| problem::file(&target.to_string_lossy(), &error))
}

/// Where a link leads that leads to no file yet.
fn followed(path: &Path) -> io::Result<PathBuf> {
    let mut place = path.to_path_buf();
    for _ in 0..LINKS {
        match fs::read_link(&place) {
            Ok(leads_to) => place = place.with_file_name("").join(leads_to),
            Err(_) => return Ok(place),
        }
    }
    Err(io::Error::new(
        io::ErrorKind::Other,
        "is a link that leads back to itself",
    ))
}

/// Makes a new file, and puts it in the place of the old one if there is one.
fn replace(
    place: &Path,
    old: Option<&Metadata>,
    write: impl FnOnce(&mut dyn Write) -> io::Result<()>,
) -> io::Result<()> {
    let folder = match place.parent() {
        Some(folder) if folder != Path::new("") => folder,
        _ => Path::new("."),
    };
    let part = Part::new(folder, old.map_or(NEW, |_| OWN))?;
    part.clean_up(folder);
    write_to(&part.file, write)?;
    if let Some(old) = old {
        keep_permissions(&part.file, old)?;
    }
    // On the disk before it has the name: a whole file, even where the power fails.
    part.file.sync_all()?;
    part.take_name(place)?;
    // The name too, where a folder can be synced.
    let _ = File::open(folder).and_then(|folder| folder.sync_all());
    Ok(())
}

fn write_to(file: &File, write: impl FnOnce(&mut dyn Write) -> io::Result<()>) -> io::Result<()> {
    let mut file = BufWriter::new(file);
    write(&mut file)?;
    file.flush()
}

/// Owner and group as far as the system lets us, and who may read and write.
fn keep_permissions(file: &File, old: &Metadata) -> io::Result<()> {
    // SAFETY: the descriptor is open as long as the file is.
    let keep = |owner| unsafe { fchown(file.as_raw_fd(), owner, old.gid()) } == 0;
    let _ = keep(old.uid()) || keep(SAME);
    file.set_permissions(Permissions::from_mode(old.mode() & 0o7777))
}

/// Locks a file until it is closed; fails at once where somebody else has.
fn lock(file: &File) -> io::Result<()> {
    // SAFETY: as for `fchown`.
    match unsafe { flock(file.as_raw_fd(), LOCK_ALONE_NOW) } {
        0 => Ok(()),
        _ => Err(io::Error::last_os_error()),
    }
}

/// A file that is being written. It is locked, so that one that nobody has
/// locked is known to be left over.
pub struct Part {
    path: PathBuf,
    file: File,
}

impl Part {
    /// A new file under a name that nobody can guess.
    fn new(folder: &Path, mode: u32) -> io::Result<Part> {
        let names = (0..TRIES).map(|_| {
            let random = RandomState::new().build_hasher().finish();
            format!("{PART_START}{random:016x}{PART_END}")
        });
        Part::first_of(folder, names, mode)
    }

    /// A new file under the first of these names that is free. What has such a
    /// name is left alone, and a link is not followed.
    pub fn first_of(
        folder: &Path,
        names: impl Iterator<Item = String>,
        mode: u32,
    ) -> io::Result<Part> {
        let mut options = OpenOptions::new();
        options.write(true).create_new(true).mode(mode);
        for name in names {
            let path = folder.join(name);
            match options.open(&path) {
                Ok(file) => {
                    let part = Part { path, file };
                    if part.is_kept()? {
                        return Ok(part);
                    }
                }
                Err(error) if error.kind() == io::ErrorKind::AlreadyExists => {}
                Err(error) => return Err(error),
            }
        }
        Err(io::Error::new(
            io::ErrorKind::Other,
            "no name beside it is free",
        ))
    }

    /// Whether nobody has cleaned it up before it was locked. Where files cannot
    /// be locked, nobody cleans up.
    fn is_kept(&self) -> io::Result<bool> {
        let cleaned_up = match lock(&self.file) {
            Err(error) => error.kind() == io::ErrorKind::WouldBlock,
            Ok(()) => self.file.metadata()?.nlink() == 0,
        };
        Ok(!cleaned_up)
    }

    /// Removes what killed programs left in the folder.
    fn clean_up(&self, folder: &Path) {
        let entries = fs::read_dir(folder).into_iter().flatten().flatten();
        for entry in entries.filter(|entry| is_part(&entry.file_name())) {
            if self.is_left_over(&entry.path()).unwrap_or(false) {
                // Where that fails, it is there the next time.
                let _ = fs::remove_file(entry.path());
            }
        }
    }

    /// Whether it is a part of the same owner that nobody writes.
    fn is_left_over(&self, path: &Path) -> io::Result<bool> {
        let about = fs::symlink_metadata(path)?;
        let is_ours = about.is_file() && about.uid() == self.file.metadata()?.uid();
        Ok(is_ours && lock(&File::open(path)?).is_ok())
    }

    /// Gives the file the name that was asked for.
    fn take_name(&self, place: &Path) -> io::Result<()> {
        fs::rename(&self.path, place)
    }
}

impl Drop for Part {
    /// Without its name it is taken away; with it there is nothing there.
    fn drop(&mut self) {
        let _ = fs::remove_file(&self.path);
    }
}

fn is_part(name: &OsStr) -> bool {
    let name = name.to_string_lossy();
    name.starts_with(PART_START) && name.ends_with(PART_END)
}
