//! A state in a file.

use crate::{library, Refusal, Run, WORDS};
use std::error::Error;
use std::ffi::{c_int, CString};
use std::fmt;
use std::io;
use std::os::unix::ffi::OsStrExt;
use std::path::Path;

/// Why a state was not stored in a file, or loaded from one.
#[derive(Debug)]
pub enum FileError {
    /// The state, or the file, is no sound one.
    Refused(Refusal),
    /// An error of the system.
    System(io::Error),
}

impl fmt::Display for FileError {
    fn fmt(&self, to: &mut fmt::Formatter) -> fmt::Result {
        match self {
            FileError::Refused(refusal) => refusal.fmt(to),
            FileError::System(error) => error.fmt(to),
        }
    }
}

impl Error for FileError {}

impl From<Refusal> for FileError {
    fn from(refusal: Refusal) -> FileError {
        FileError::Refused(refusal)
    }
}

impl From<io::Error> for FileError {
    fn from(error: io::Error) -> FileError {
        FileError::System(error)
    }
}

/// Files.
impl Run {
    /// Stores the state in a file. A crash, a full disk or an error in the middle leaves the old file.
    ///
    /// ```
    /// # use lemidrosy::{FileError, Run};
    /// # fn main() -> Result<(), FileError> {
    /// let path = std::env::temp_dir().join(format!("lemidrosy-{}", std::process::id()));
    /// let mut run = Run::start(&[1, 1])?;
    /// run.send(0, 1)?;
    /// run.store_file(&path)?;
    /// assert_eq!(Run::load_file(&path)?.messages()?, run.messages()?);
    /// std::fs::remove_file(&path)?;
    /// assert!(matches!(Run::load_file(&path), Err(FileError::System(_))));
    /// # Ok(())
    /// # }
    /// ```
    pub fn store_file(&self, path: impl AsRef<Path>) -> Result<(), FileError> {
        let path = c_path(path.as_ref())?;
        // Other words than those of a state are refused here, so that there are as many as a state has.
        self.save()?;
        let words: &[u16; WORDS] = self.words[..]
            .try_into()
            .map_err(|_| Refusal::UnsoundState)?;
        done(library::store_file(&path, words))
    }

    /// The state of a file.
    pub fn load_file(path: impl AsRef<Path>) -> Result<Run, FileError> {
        let path = c_path(path.as_ref())?;
        let mut words = Box::new([0; WORDS]);
        done(library::load_file(&path, &mut words))?;
        Ok(Run { words })
    }
}

/// 0, the number of a refusal, or an error of the system below 0.
fn done(status: c_int) -> Result<(), FileError> {
    match u8::try_from(status) {
        Ok(0) => Ok(()),
        Ok(number) => Err(Refusal::with_number(number)
            .expect("the library gives no other number")
            .into()),
        Err(_) => Err(io::Error::from_raw_os_error(-status).into()),
    }
}

fn c_path(path: &Path) -> io::Result<CString> {
    Ok(CString::new(path.as_os_str().as_bytes())?)
}
