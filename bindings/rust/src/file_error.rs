use crate::Refusal;
use std::error::Error;
use std::path::{Path, PathBuf};
use std::{fmt, io};

/// Why a file gives no [`Keys`](crate::Keys). Its text names the file, such as `service.jwk: 7 Json`.
#[non_exhaustive]
pub enum FileError {
    /// The file cannot be read.
    Unreadable {
        /// The file.
        file: PathBuf,
        /// What the system says.
        cause: io::Error,
    },
    /// The keys in the file are refused.
    Refused {
        /// The file.
        file: PathBuf,
        /// The refusal.
        refusal: Refusal,
    },
}

impl FileError {
    /// The file.
    #[must_use]
    pub fn file(&self) -> &Path {
        match self {
            FileError::Unreadable { file, .. } | FileError::Refused { file, .. } => file,
        }
    }

    /// The refusal, if the file could be read.
    #[must_use]
    pub fn refusal(&self) -> Option<Refusal> {
        match self {
            FileError::Unreadable { .. } => None,
            FileError::Refused { refusal, .. } => Some(*refusal),
        }
    }
}

impl fmt::Display for FileError {
    /// Writes the file, a colon and why, such as `service.jwk: 7 Json`.
    fn fmt(&self, out: &mut fmt::Formatter<'_>) -> fmt::Result {
        match self {
            FileError::Unreadable { file, cause } => write!(out, "{}: {cause}", file.display()),
            FileError::Refused { file, refusal } => write!(out, "{}: {refusal}", file.display()),
        }
    }
}

impl fmt::Debug for FileError {
    /// Writes the same, since a `main` that returns an error prints it so.
    fn fmt(&self, out: &mut fmt::Formatter<'_>) -> fmt::Result {
        fmt::Display::fmt(self, out)
    }
}

// The text has the cause already, so there is no source.
impl Error for FileError {}
