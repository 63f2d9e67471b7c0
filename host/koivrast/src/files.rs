//! Reading and writing files whole. A result gets its name when it is complete; a secret can be read by its owner only.

use crate::trouble::Trouble;
use raccoon::{Secret, os_random};
use std::fs::{self, File, OpenOptions};
use std::io::{self, ErrorKind, Read, Write};
use std::ops::Deref;
use std::os::unix::fs::OpenOptionsExt;
use std::path::{Path, PathBuf};

/// What was read from a file, wiped when it is dropped.
pub struct Contents {
    /// The file's name as messages have it.
    pub name: String,
    buffer: Secret<u8>,
    length: usize,
}

impl Contents {
    /// Reads a file, or standard input for `-`: of what is longer than the limit, one byte more than that.
    pub fn read(path: &Path, limit: usize) -> Result<Contents, Trouble> {
        if path.as_os_str() == "-" {
            return Contents::of("standard input".into(), io::stdin().lock(), limit);
        }
        let name = path.display().to_string();
        let file = File::open(path).map_err(|error| Trouble::file(&name, &error))?;
        Contents::of(name, file, limit)
    }

    /// One buffer from the start, so that no copy is left behind.
    fn of(name: String, mut source: impl Read, limit: usize) -> Result<Contents, Trouble> {
        let (mut buffer, mut length) = (Secret::zeros(limit + 1), 0);
        while length <= limit {
            match source.read(&mut buffer[length..]) {
                Ok(0) => break,
                Ok(n) => length += n,
                Err(error) if error.kind() == ErrorKind::Interrupted => {}
                Err(error) => return Err(Trouble::file(&name, &error)),
            }
        }
        Ok(Contents { name, buffer, length })
    }

    /// `order.sig has 5000 bytes`
    pub fn length_said(&self) -> String {
        match self.buffer.len() - 1 {
            limit if self.length > limit => format!("{} has more than {limit} bytes", self.name),
            _ if self.length == 1 => format!("{} has 1 byte", self.name),
            _ => format!("{} has {} bytes", self.name, self.length),
        }
    }
}

impl Deref for Contents {
    type Target = [u8];

    fn deref(&self) -> &[u8] {
        &self.buffer[..self.length]
    }
}

/// Writes to standard output. A reader that has gone ends the command without a word.
pub fn print(bytes: impl AsRef<[u8]>) -> Result<(), Trouble> {
    let mut output = io::stdout().lock();
    output.write_all(bytes.as_ref()).and_then(|()| output.flush()).map_err(|error| match error.kind() {
        ErrorKind::BrokenPipe => Trouble::Said(2),
        _ => Trouble::file("standard output", &error),
    })
}

/// Do both paths name the same file, there or not?
pub fn same_place(a: &Path, b: &Path) -> bool {
    a.as_os_str() != "-" && matches!((place(a), place(b)), (Ok(a), Ok(b)) if a == b)
}

/// The path without links, `.` and `..`.
fn place(path: &Path) -> io::Result<PathBuf> {
    fs::canonicalize(path).or_else(|_| Ok(fs::canonicalize(folder(path))?.join(path.file_name().unwrap_or_default())))
}

fn folder(path: &Path) -> &Path {
    path.parent().filter(|parent| !parent.as_os_str().is_empty()).unwrap_or(Path::new("."))
}

/// A file to be written.
#[derive(Debug)]
pub struct NewFile {
    name: String,
    place: PathBuf,
    replace: bool,
    mode: u32,
}

impl NewFile {
    /// A file that its owner alone can read, for a secret.
    pub fn secret(path: &Path, replace: bool) -> Result<NewFile, Trouble> {
        if fs::metadata(path).is_ok_and(|there| !there.is_file() && !there.is_dir()) {
            return Err(Trouble::System(format!("{}: a secret is written to a plain file only", path.display())));
        }
        NewFile::new(path, replace, 0o600)
    }

    /// What can be known before the work is done: is nothing in the way?
    fn new(path: &Path, replace: bool, mode: u32) -> Result<NewFile, Trouble> {
        let name = path.display().to_string();
        match fs::metadata(path) {
            Ok(there) if there.is_dir() => Err(Trouble::System(format!("{name}: Is a directory"))),
            Ok(_) if !replace => Err(exists(&name)),
            // behind a symbolic link it is the file itself that is replaced
            Ok(_) => {
                let place = fs::canonicalize(path).map_err(|error| Trouble::file(&name, &error))?;
                Ok(NewFile { name, place, replace, mode })
            }
            Err(_) => Ok(NewFile { name, place: path.into(), replace, mode }),
        }
    }

    /// Writes all bytes to a new file of another name in the same folder.
    pub fn stage(self, bytes: &[u8]) -> Result<Staged, Trouble> {
        let mut number = [0; 8];
        os_random(&mut number).map_err(Trouble::random)?;
        let path = folder(&self.place).join(format!(".koivrast-{:016x}", u64::from_le_bytes(number)));
        let trouble = |error| Trouble::file(&self.name, &error);
        let mut file = OpenOptions::new().write(true).create_new(true).mode(self.mode).open(&path).map_err(trouble)?;
        let staged = Staged { path, file: self };
        file.write_all(bytes).and_then(|()| file.sync_all()).map_err(|error| Trouble::file(&staged.file.name, &error))?;
        Ok(staged)
    }
}

fn exists(name: &str) -> Trouble {
    Trouble::System(format!("{name}: exists already and is left as it was; --force replaces it"))
}

/// A file that is complete but does not have its name yet. Dropped, it is removed.
#[derive(Debug)]
pub struct Staged {
    path: PathBuf,
    file: NewFile,
}

impl Staged {
    /// Gives the file its name.
    pub fn publish(self) -> Result<(), Trouble> {
        let NewFile { name, place, replace, .. } = &self.file;
        let done = if *replace { fs::rename(&self.path, place) } else { self.link() };
        done.map_err(|error| match error.kind() {
            ErrorKind::AlreadyExists => exists(name),
            _ => Trouble::file(name, &error),
        })
    }

    /// A link replaces nothing, even if the name was taken a moment ago. Where the file system has no links, looking has to do.
    fn link(&self) -> io::Result<()> {
        match fs::hard_link(&self.path, &self.file.place) {
            Err(error) if error.kind() != ErrorKind::AlreadyExists && self.file.place.symlink_metadata().is_err() => {
                fs::rename(&self.path, &self.file.place)
            }
            done => done,
        }
    }
}

impl Drop for Staged {
    fn drop(&mut self) {
        // after a rename it is gone already
        let _ = fs::remove_file(&self.path);
    }
}

/// Where a result goes that is not secret.
#[derive(Debug)]
pub enum Target {
    StandardOutput,
    /// A pipe or device, which is written as it is.
    Stream(PathBuf),
    File(NewFile),
}

impl Target {
    pub fn new(path: &Path, replace: bool) -> Result<Target, Trouble> {
        if path.as_os_str() == "-" {
            return Ok(Target::StandardOutput);
        }
        if fs::metadata(path).is_ok_and(|there| !there.is_file() && !there.is_dir()) {
            return Ok(Target::Stream(path.into()));
        }
        NewFile::new(path, replace, 0o666).map(Target::File)
    }

    pub fn write(self, bytes: &[u8]) -> Result<(), Trouble> {
        match self {
            Target::StandardOutput => print(bytes),
            Target::Stream(path) => {
                let written = OpenOptions::new().write(true).open(&path).and_then(|mut stream| stream.write_all(bytes));
                written.map_err(|error| Trouble::file(path.display(), &error))
            }
            Target::File(file) => file.stage(bytes)?.publish(),
        }
    }
}
