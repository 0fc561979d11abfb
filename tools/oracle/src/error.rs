//! Stand-in for `crate::error`: an error is its text, from which `published::number` reads document 01's number.

use std::fmt;

pub type Result<T> = std::result::Result<T, Error>;

pub enum ErrorKind {
    DataInvalid,
    Unexpected,
}

#[derive(Debug, Clone)]
pub struct Error {
    message: String,
}

impl Error {
    pub fn new(_kind: ErrorKind, message: impl Into<String>) -> Self {
        let message = message.into();
        Self { message }
    }

    /// The source's text already stands in the message where the published files give one.
    pub fn with_source(self, _source: Error) -> Self {
        self
    }
}

impl fmt::Display for Error {
    fn fmt(&self, f: &mut fmt::Formatter<'_>) -> fmt::Result {
        f.write_str(&self.message)
    }
}
