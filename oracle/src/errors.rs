//! In place of longshot's errors, which error_chain makes: kinds, `chain_err`, `bail!` and `ensure!`. And `eprintln!`
//! without a line: what it would print is worked out, so that the totals in it reach the log of PHREDProbs.

use std;

#[allow(dead_code)]
#[derive(Debug)]
pub enum ErrorKind {
    Message(String),
    InvalidTransitionBase(String),
    GenotypeNotInGenotypePriorsError(char, char, char),
    BamOpenError,
    BamHeaderTargetLenAccessError,
    BamWriterOpenError(String),
    BamRecordWriteError(String),
    BamAuxError(&'static str),
    IndexedBamOpenError,
    IndexedBamFetchError,
    IndexedBamRecordReadError,
    BCFOpenError,
    BCFReadError,
}

pub type Result<T> = std::result::Result<T, ErrorKind>;

impl<'a> From<&'a str> for ErrorKind {
    fn from(message: &'a str) -> ErrorKind {
        ErrorKind::Message(message.to_string())
    }
}

impl From<String> for ErrorKind {
    fn from(message: String) -> ErrorKind {
        ErrorKind::Message(message)
    }
}

pub trait ChainErr<T> {
    fn chain_err<F: FnOnce() -> K, K: Into<ErrorKind>>(self, kind: F) -> Result<T>;
}

impl<T> ChainErr<T> for Option<T> {
    fn chain_err<F: FnOnce() -> K, K: Into<ErrorKind>>(self, kind: F) -> Result<T> {
        self.ok_or_else(|| kind().into())
    }
}

impl<T, E> ChainErr<T> for std::result::Result<T, E> {
    fn chain_err<F: FnOnce() -> K, K: Into<ErrorKind>>(self, kind: F) -> Result<T> {
        self.map_err(|_| kind().into())
    }
}

macro_rules! bail {
    ($kind:expr) => {
        return Err($kind.into())
    };
}

macro_rules! ensure {
    ($condition:expr, $kind:expr) => {
        if !$condition {
            bail!($kind);
        }
    };
}

macro_rules! eprintln {
    ($($part:tt)*) => {
        let _ = format_args!($($part)*);
    };
}
