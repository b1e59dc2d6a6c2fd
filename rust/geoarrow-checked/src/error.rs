//! Why a call gives no answer.
use crate::finding::Finding;
use std::fmt::{self, Display, Formatter};
use std::str;

/// Why a call gives no answer.
#[derive(Debug, Clone, PartialEq, Eq, Hash)]
#[non_exhaustive]
pub enum Error {
    /// Out of memory.
    OutOfMemory,
    /// More than 1,000,000 lines, or a line of more than 1,048,576 bytes.
    Limit,
    /// The bytes are refused, and why; of two files those of the other one.
    Refused(Finding),
    /// Of two files the bytes of the first are refused, and why.
    FirstRefused(Finding),
    /// A line of a report that this crate cannot read.
    Line(String),
    /// What arrow-rs says where it makes no structure of a schema or a field; of the module `arrow`
    /// alone.
    Arrow(String),
    /// A status that this crate does not know, or 5 or 6 with a line that it cannot read.
    Other(u8),
}

const MEMORY: u8 = 2;
const LIMIT: u8 = 4;
const REFUSED: u8 = 5;
const FIRST_REFUSED: u8 = 6;

/// The error of a status at which there is no answer, with what was written.
pub(crate) fn error_of(status: u8, written: &[u8]) -> Error {
    match status {
        MEMORY => Error::OutOfMemory,
        LIMIT => Error::Limit,
        REFUSED => refused(written).map_or(Error::Other(REFUSED), Error::Refused),
        FIRST_REFUSED => refused(written).map_or(Error::Other(FIRST_REFUSED), Error::FirstRefused),
        other => Error::Other(other),
    }
}

/// Why the bytes are refused, by the line that was written, with its line feed.
fn refused(written: &[u8]) -> Option<Finding> {
    Finding::of_line(str::from_utf8(written).ok()?.strip_suffix('\n')?)
}

impl Display for Error {
    fn fmt(&self, f: &mut Formatter<'_>) -> fmt::Result {
        match self {
            Error::OutOfMemory => f.write_str("out of memory"),
            Error::Limit => {
                f.write_str("more than 1,000,000 lines, or a line of more than 1,048,576 bytes")
            }
            Error::Refused(finding) => finding.fmt(f),
            Error::FirstRefused(finding) => write!(f, "the first file: {finding}"),
            Error::Line(line) => write!(f, "a line that is not read: {line}"),
            Error::Arrow(text) => f.write_str(text),
            Error::Other(status) => write!(f, "status {status}"),
        }
    }
}

impl std::error::Error for Error {}

#[cfg(test)]
mod tests {
    use super::{error_of, Error};

    const LINE: &[u8] =
        b"{\"kind\":\"finding\",\"severity\":\"error\",\"code\":\"C\",\"line\":7,\"found\":\"f\",\"expected\":\"e\"}\n";

    #[test]
    fn each_status_has_its_error() {
        let Error::Refused(finding) = error_of(5, LINE) else {
            panic!("not refused");
        };
        assert_eq!((finding.code(), finding.line()), ("C", Some(7)));
        assert_eq!(finding.as_json().as_bytes(), &LINE[..LINE.len() - 1]);
        assert_eq!(error_of(6, LINE), Error::FirstRefused(finding));
        assert_eq!(error_of(2, LINE), Error::OutOfMemory);
        assert_eq!(error_of(4, LINE), Error::Limit);
        for other in [1, 3, 7, 11, 16, 30, 255] {
            assert_eq!(error_of(other, LINE), Error::Other(other));
        }
        for line in [
            &b""[..],
            b"\n",
            b"refused",
            b"{\"kind\":\"finding\",\"code\":\"C\"}\n",
            b"{\"severity\":\"error\",\"code\":\"C\",\"expected\":\"e\"}\n",
            b"{\"kind\":\"finding\",\"severity\":\"error\",\"code\":\"\xff\",\"expected\":\"e\"}\n",
            &LINE[..LINE.len() - 1],
            &[LINE, b"\n"].concat(),
        ] {
            assert_eq!(error_of(5, line), Error::Other(5));
            assert_eq!(error_of(6, line), Error::Other(6));
        }
    }

    #[test]
    fn each_error_has_its_words() {
        for (error, words) in [
            (Error::OutOfMemory, "out of memory"),
            (
                Error::Limit,
                "more than 1,000,000 lines, or a line of more than 1,048,576 bytes",
            ),
            (error_of(5, LINE), "error[C] line 7: found f; expected e"),
            (
                error_of(6, LINE),
                "the first file: error[C] line 7: found f; expected e",
            ),
            (Error::Line("{}".into()), "a line that is not read: {}"),
            (Error::Arrow("Schema error: s".into()), "Schema error: s"),
            (Error::Other(3), "status 3"),
        ] {
            assert_eq!(error.to_string(), words);
        }
    }
}
