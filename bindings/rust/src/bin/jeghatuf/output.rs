//! Where answers go: standard output, or a file that appears when all of it is written.

use std::ffi::{OsStr, OsString};
use std::fs::{self, File, OpenOptions};
use std::io::{self, IsTerminal, Write};
use std::os::unix::fs::FileTypeExt;
use std::path::{Path, PathBuf};

use crate::failure::Failure;

/// How many bytes are gathered before they are written.
const ROOM: usize = 1 << 16;

/// An output with what was not written yet.
pub struct Output {
    pub bytes: Vec<u8>,
    target: Target,
}

enum Target {
    Standard,
    /// A device or a pipe, to which there is nothing to write over.
    Open(File, String),
    File(Draft),
}

/// A file beside the one that is meant, which takes its place at the end. It is removed
/// where that does not come.
struct Draft {
    file: File,
    path: PathBuf,
    meant: PathBuf,
    name: String,
    is_forced: bool,
    is_done: bool,
}

impl Output {
    /// Standard output.
    pub fn standard() -> Self {
        Self::to(Target::Standard)
    }

    fn to(target: Target) -> Self {
        Self {
            bytes: Vec::with_capacity(2 * ROOM),
            target,
        }
    }

    /// Standard output for bytes that are no text: not a terminal's.
    pub fn for_bytes() -> Result<Self, Failure> {
        if io::stdout().is_terminal() {
            let line = "the answer is bytes, and standard output a terminal: -o FILE names a file for them, -o - writes them here";
            return Err(Failure::Unusable(line.into()));
        }
        Ok(Self::standard())
    }

    /// A file, which may stand already if this is forced; or `-`.
    pub fn file(word: &OsStr, is_forced: bool) -> Result<Self, Failure> {
        if word == "-" {
            return Ok(Self::standard());
        }
        let name = crate::words::plain(&word.to_string_lossy());
        let meant = Path::new(word);
        let found = fs::metadata(meant).ok().map(|found| found.file_type());
        if found.is_some_and(|found| found.is_dir()) {
            return Err(Failure::unusable(&name, "is a directory"));
        }
        let is_stream = found.is_some_and(|found| found.is_char_device() || found.is_fifo());
        if fs::symlink_metadata(meant).is_ok() && !is_stream && !is_forced {
            return Err(Failure::unusable(
                &name,
                "is there already; --force writes over it",
            ));
        }
        if found.is_some_and(|found| !found.is_file()) {
            let file = OpenOptions::new().write(true).open(meant);
            let file = file.map_err(|fault| Failure::unusable(&name, fault))?;
            return Ok(Self::to(Target::Open(file, name)));
        }
        let meant = fs::canonicalize(meant).unwrap_or_else(|_| meant.to_path_buf());
        Draft::new(meant, name, is_forced).map(|draft| Self::to(Target::File(draft)))
    }

    /// Whether it is standard output.
    pub fn is_standard(&self) -> bool {
        matches!(self.target, Target::Standard)
    }

    /// Writes what was gathered, if it is enough to be worth it.
    pub fn spill(&mut self) -> Result<(), Failure> {
        if self.bytes.len() < ROOM {
            return Ok(());
        }
        self.flush()
    }

    /// Writes what was gathered.
    pub fn flush(&mut self) -> Result<(), Failure> {
        match &mut self.target {
            Target::Standard => {
                let mut out = io::stdout().lock();
                let done = out.write_all(&self.bytes).and_then(|()| out.flush());
                done.map_err(|fault| Failure::of_output(&fault))?;
            }
            Target::Open(file, name) => {
                let done = file.write_all(&self.bytes);
                done.map_err(|fault| Failure::unusable(&name, fault))?;
            }
            Target::File(draft) => {
                let done = draft.file.write_all(&self.bytes);
                done.map_err(|fault| Failure::unusable(&draft.name, fault))?;
            }
        }
        self.bytes.clear();
        Ok(())
    }

    /// Writes the rest, and puts a file in its place. That nobody reads the rest is no
    /// fault.
    pub fn finish(mut self) -> Result<(), Failure> {
        match self.flush() {
            Err(Failure::Closed) => return Ok(()),
            flushed => flushed?,
        }
        if let Target::File(draft) = &mut self.target {
            let done = draft.settle();
            done.map_err(|fault| Failure::unusable(&draft.name, fault))?;
        }
        Ok(())
    }
}

impl Draft {
    fn new(meant: PathBuf, name: String, is_forced: bool) -> Result<Self, Failure> {
        let fault = |fault: io::Error| Failure::unusable(&name, fault);
        let file_name = meant.file_name().map(OsStr::to_os_string);
        let mut draft_name = OsString::from(".");
        draft_name.push(file_name.ok_or_else(|| fault(io::ErrorKind::InvalidFilename.into()))?);
        draft_name.push(format!(".{}.part", std::process::id()));
        let path = meant.with_file_name(draft_name);
        let file = OpenOptions::new().write(true).create_new(true).open(&path);
        let file = file.map_err(fault)?;
        if let Ok(before) = fs::metadata(&meant) {
            file.set_permissions(before.permissions()).map_err(fault)?;
        }
        Ok(Self {
            file,
            path,
            meant,
            name,
            is_forced,
            is_done: false,
        })
    }

    /// Takes the place of the file that is meant. Where it is not forced, a link does it,
    /// which never replaces a file that came meanwhile.
    fn settle(&mut self) -> io::Result<()> {
        self.file.sync_all()?;
        if !self.is_forced {
            match fs::hard_link(&self.path, &self.meant) {
                Ok(()) => return Ok(()),
                Err(fault) if fault.kind() == io::ErrorKind::AlreadyExists => return Err(fault),
                // a file system without links
                Err(_) => {}
            }
        }
        fs::rename(&self.path, &self.meant)?;
        self.is_done = true;
        Ok(())
    }
}

impl Drop for Draft {
    fn drop(&mut self) {
        if !self.is_done {
            let _ = fs::remove_file(&self.path);
        }
    }
}
