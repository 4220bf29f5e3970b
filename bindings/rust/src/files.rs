//! Files that are there whole or not at all.

use std::ffi::OsString;
use std::fs::{self, File};
use std::io::{self, Write};
use std::path::{Path, PathBuf};
use std::sync::atomic::{AtomicU64, Ordering};

/// Tells the writes of this process apart, which may overlap.
static WRITTEN: AtomicU64 = AtomicU64::new(0);

/// Writes a file so that a kill at any moment leaves the old one or the new one, whole: beside it, flushed to
/// the disk, then renamed over it. Two processes that write one file at once each leave theirs or the
/// other's. What a kill leaves beside it, `.PROCESS-NUMBER.part` after its name, may be removed. A link stays one, a file
/// keeps its rights, and what is no file on a disk, as a pipe, is written straight.
pub fn write_whole(path: impl AsRef<Path>, bytes: &[u8]) -> io::Result<()> {
    let mut whole = Whole::beside(path)?;
    whole.write_all(bytes)?;
    whole.finish()
}

/// A file that is written in pieces beside the one that it becomes when it is finished, as [`write_whole`] does at
/// once. Dropped before that, it is gone and the old one is there.
#[derive(Debug)]
pub struct Whole {
    file: File,
    /// Its name until it is finished and the name that it gets; none of what is written straight, or is finished.
    names: Option<(PathBuf, PathBuf)>,
}

impl Whole {
    /// An empty file beside the one that it becomes, whose rights it has if that is there. Only a file on a disk is replaced,
    /// and only a name that nothing has is given to a new one; a pipe or device is opened as it is.
    pub fn beside(path: impl AsRef<Path>) -> io::Result<Whole> {
        let path = path.as_ref();
        match fs::metadata(path) {
            Ok(old) if old.is_file() => {
                // a file that may not be written is not replaced either
                File::options().write(true).open(path)?;
                // where a link leads, so that it stays one
                let whole = Whole::becoming(fs::canonicalize(path)?)?;
                whole.file.set_permissions(old.permissions())?;
                Ok(whole)
            }
            Ok(old) if old.is_dir() => Err(io::Error::from(io::ErrorKind::IsADirectory)),
            Ok(_) => Ok(Whole {
                file: File::options().write(true).open(path)?,
                names: None,
            }),
            // a link that leads nowhere, or only the system knows where, stays too
            Err(error)
                if error.kind() != io::ErrorKind::NotFound
                    || fs::symlink_metadata(path).is_ok() =>
            {
                Err(error)
            }
            Err(_) => Whole::becoming(path.to_owned()),
        }
    }

    fn becoming(path: PathBuf) -> io::Result<Whole> {
        let beside = name_beside(&path)?;
        Ok(Whole {
            file: File::create(&beside)?,
            names: Some((beside, path)),
        })
    }

    /// Everything is written: has the disk take it, and renames it over the old one.
    pub fn finish(mut self) -> io::Result<()> {
        let Some((beside, path)) = &self.names else {
            return Ok(());
        };
        self.file.sync_all()?;
        fs::rename(beside, path)?;
        let flushed = flush_folder(path);
        self.names = None;
        flushed
    }
}

impl Write for Whole {
    fn write(&mut self, bytes: &[u8]) -> io::Result<usize> {
        self.file.write(bytes)
    }

    fn flush(&mut self) -> io::Result<()> {
        self.file.flush()
    }
}

impl Drop for Whole {
    fn drop(&mut self) {
        if let Some((beside, _)) = &self.names {
            // the reason is what is told
            let _ = fs::remove_file(beside);
        }
    }
}

/// A name in the same folder that no other process takes, nor another write of this one.
fn name_beside(path: &Path) -> io::Result<PathBuf> {
    let no_name = || io::Error::new(io::ErrorKind::InvalidInput, "the path names no file");
    let mut name = OsString::from(path.file_name().ok_or_else(no_name)?);
    let number = WRITTEN.fetch_add(1, Ordering::Relaxed);
    name.push(format!(".{}-{number}.part", std::process::id()));
    Ok(path.with_file_name(name))
}

/// Has the disk know the new name, where folders can be flushed.
fn flush_folder(path: &Path) -> io::Result<()> {
    if cfg!(unix) {
        let folder = path
            .parent()
            .filter(|folder| !folder.as_os_str().is_empty());
        File::open(folder.unwrap_or(Path::new(".")))?.sync_all()?;
    }
    Ok(())
}
