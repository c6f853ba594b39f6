//! The folder of a trail: its state, and the lock of the one who writes it.

use crate::failure::{Exit, Failure};
use crate::path::{folder_of, shown};
use crate::state::{State, Unreadable};
use std::fs::{self, File, TryLockError};
use std::io::{self, ErrorKind};
use std::path::{Path, PathBuf};
use std::thread;

const STATE: &str = "state";
/// The state while it is written.
const NEW: &str = "state.new";
const LOCK: &str = "lock";

/// Reads the state of the trail in a folder.
pub fn read(dir: &Path) -> Result<State, Failure> {
    State::read(open(dir)?).map_err(|error| unreadable(dir, error))
}

/// What is answered, in moments, from the state of the trail in a folder.
pub fn ask<A>(dir: &Path, answer: impl FnOnce(State) -> Result<A, Failure>) -> Result<A, Failure> {
    State::ask(open(dir)?, answer).map_err(|error| unreadable(dir, error))?
}

fn open(dir: &Path) -> Result<File, Failure> {
    File::open(dir.join(STATE)).map_err(|error| no_state(dir, error))
}

/// The one who may write the trail in a folder, until it is dropped.
pub struct Writer {
    dir: PathBuf,
    /// Holds the lock while it is open.
    _lock: File,
}

impl Writer {
    /// Locks the trail in a folder.
    pub fn open(dir: &Path) -> Result<Writer, Failure> {
        // Before anything is made: a folder without a trail gets no lock.
        fs::metadata(dir.join(STATE)).map_err(|error| no_state(dir, error))?;
        Writer::lock(dir)
    }

    /// Makes a folder, with those above it, for a trail that it does not hold yet, and locks it.
    pub fn make(dir: &Path) -> Result<Writer, Failure> {
        let there_already = || {
            let message = format!(
                "there is a trail in {} already; nothing was changed",
                shown(dir)
            );
            Failure::new(Exit::Usage, message)
        };
        let has_state = || fs::symlink_metadata(dir.join(STATE)).is_ok();
        if has_state() {
            return Err(there_already());
        }
        make_folder(dir)
            .map_err(|error| Failure::io(format!("cannot make {}", shown(dir)), error))?;
        let writer = Writer::lock(dir)?;
        match has_state() {
            true => Err(there_already()),
            false => Ok(writer),
        }
    }

    fn lock(dir: &Path) -> Result<Writer, Failure> {
        let path = dir.join(LOCK);
        let failed = |error| Failure::io(format!("cannot lock {}", shown(&path)), error);
        let mut options = File::options();
        options.read(true).write(true).create(true).truncate(false);
        let lock = options.open(&path).map_err(failed)?;
        match lock.try_lock() {
            Ok(()) => Ok(Writer {
                dir: dir.to_path_buf(),
                _lock: lock,
            }),
            Err(TryLockError::Error(error)) => Err(failed(error)),
            Err(TryLockError::WouldBlock) => {
                let message = format!(
                    "another command is writing to {}; nothing was changed",
                    shown(dir)
                );
                Err(Failure::new(Exit::AnotherWriter, message))
            }
        }
    }

    /// Puts a state that can be read back in place of the one before. When this returns, it is on disk; if it fails before the new
    /// one is whole, the one before stays.
    pub fn commit(&self, state: &State) -> Result<(), Failure> {
        let new = self.dir.join(NEW);
        let put = self.write_new(&new, state).and_then(|()| {
            fs::rename(&new, self.dir.join(STATE)).map_err(|error| not_written(&new, error))
        });
        if put.is_err() {
            let _ = fs::remove_file(&new);
        }
        put.and_then(|()| self.sync())
    }

    /// Puts on disk that the state is in its place.
    pub fn sync(&self) -> Result<(), Failure> {
        sync_folder(&self.dir).map_err(|error| {
            let doing = format!("the state in {} may not be on disk", shown(&self.dir));
            Failure::io(doing, error)
        })
    }

    /// Writes a state, and reads it back while it is put on disk.
    fn write_new(&self, new: &Path, state: &State) -> Result<(), Failure> {
        let failed = |error| not_written(new, error);
        let (file, again) = self.create(new).map_err(failed)?;
        state.write(&file).map_err(failed)?;
        thread::scope(|scope| {
            let read_back = thread::Builder::new()
                .spawn_scoped(scope, || State::ask(again, |_| ()))
                .map_err(failed)?;
            file.sync_all().map_err(failed)?;
            let read_back = read_back.join().expect("reading does not panic");
            read_back.map_err(not_read_back)
        })
    }

    /// A new file, open for writing and once more for reading.
    fn create(&self, new: &Path) -> io::Result<(File, File)> {
        // One that was left half written may not be writable.
        match fs::remove_file(new) {
            Err(error) if error.kind() == ErrorKind::NotFound => {}
            removed => removed?,
        }
        let file = File::create_new(new)?;
        let again = File::open(new)?;
        if let Ok(before) = fs::metadata(self.dir.join(STATE)) {
            file.set_permissions(before.permissions())?;
        }
        Ok((file, again))
    }
}

/// Makes a folder and those above it, each of them on disk when this returns.
fn make_folder(dir: &Path) -> io::Result<()> {
    if dir.is_dir() {
        return Ok(());
    }
    let above = folder_of(dir);
    make_folder(above)?;
    match fs::create_dir(dir) {
        Err(error) if error.kind() == ErrorKind::AlreadyExists && dir.is_dir() => {}
        made => made?,
    }
    sync_folder(above)
}

pub fn sync_folder(dir: &Path) -> io::Result<()> {
    File::open(dir)?.sync_all()
}

fn not_written(new: &Path, error: io::Error) -> Failure {
    let doing = format!("cannot write {}, the trail stays as it was", shown(new));
    Failure::io(doing, error)
}

fn not_read_back(error: Unreadable) -> Failure {
    let message = format!("the new state cannot be read back, the trail stays as it was: {error}");
    let exit = match error {
        Unreadable::Read(_) | Unreadable::Thread(_) => Exit::InputOutput,
        _ => Exit::Damaged,
    };
    Failure::new(exit, message)
}

fn no_state(dir: &Path, error: io::Error) -> Failure {
    match error.kind() {
        ErrorKind::NotFound | ErrorKind::NotADirectory => {
            let message = format!("no trail in {}; `trail init` makes one", shown(dir));
            Failure::new(Exit::NotFound, message)
        }
        _ => Failure::io(format!("cannot read {}", shown(&dir.join(STATE))), error),
    }
}

fn unreadable(dir: &Path, error: Unreadable) -> Failure {
    let dir = shown(dir);
    match error {
        Unreadable::Read(error) => Failure::io(format!("cannot read {dir}/{STATE}"), error),
        Unreadable::Thread(_) => Failure::new(Exit::InputOutput, error.to_string()),
        Unreadable::OtherFormat(_) => {
            let message = format!("the state of {dir} is damaged, or of a later program: {error}\nNothing was written.");
            Failure::new(Exit::Damaged, message)
        }
        _ => {
            let message = format!(
                "the state of {dir} is damaged: {error}\n\
                 Nothing was written. Put a copy of {dir}/state in its place; or make a new trail, and take in it the last kept log \
                 and the recordings since."
            );
            Failure::new(Exit::Damaged, message)
        }
    }
}

#[cfg(test)]
mod tests;
