//! What a call writes, into room that is large enough.
use crate::error::{error_of, Error};

/// The statuses of an answer, and of room that is too small.
pub(crate) const DONE: u8 = 0;
const SHORT: u8 = 1;

/// Room at first for what is written of an input of few bytes, and at most for one of many: what is
/// written of most is shorter.
const LEAST: usize = 1 << 12;
const MOST: usize = 1 << 24;

/// What a call writes into room that is large enough: it is called again where the first was not,
/// whether it answers or says why it refuses.
pub(crate) fn filled(
    given: usize,
    call: impl Fn(&mut [u8], &mut usize) -> u8,
) -> Result<Vec<u8>, Error> {
    let mut size = LEAST + given.saturating_mul(2).min(MOST);
    loop {
        let mut out = Vec::new();
        out.try_reserve_exact(size)
            .map_err(|_| Error::OutOfMemory)?;
        out.resize(size, 0);
        let mut len = 0;
        let status = call(&mut out, &mut len);
        if status == SHORT && len > size {
            size = len;
            continue;
        }
        out.truncate(len);
        return match status {
            DONE => Ok(out),
            other => Err(error_of(other, &out)),
        };
    }
}

#[cfg(test)]
mod tests {
    use super::{filled, DONE, LEAST, SHORT};
    use crate::Error;
    use std::cell::Cell;

    /// What is made of a call that has this status and text, and how often it is called.
    fn made(status: u8, text: &[u8]) -> (Result<Vec<u8>, Error>, usize) {
        let calls = Cell::new(0);
        let found = filled(0, |out, len| {
            calls.set(calls.get() + 1);
            *len = text.len();
            match out.get_mut(..text.len()) {
                Some(front) => front.copy_from_slice(text),
                None => return SHORT,
            }
            status
        });
        (found, calls.get())
    }

    #[test]
    fn an_answer_that_needs_more_room() {
        for (size, times) in [(0, 1), (LEAST, 1), (LEAST + 1, 2), (9 * LEAST, 2)] {
            let text = vec![b'a'; size];
            assert_eq!(made(DONE, &text), (Ok(text), times));
        }
    }

    #[test]
    fn a_refusal_that_needs_more_room() {
        for (size, times) in [(1, 1), (LEAST, 2), (9 * LEAST, 2)] {
            let name = "n".repeat(size);
            let line = format!(
                "{{\"kind\":\"finding\",\"severity\":\"error\",\"code\":\"C\",\"file\":\"{name}\",\"expected\":\"e\"}}\n"
            );
            let (Err(Error::Refused(finding)), called) = made(5, line.as_bytes()) else {
                panic!("not refused");
            };
            assert_eq!((finding.file(), called), (Some(&*name), times));
            assert_eq!(finding.as_json(), line.trim_end());
        }
    }

    #[test]
    fn a_refusal_that_is_not_read() {
        assert_eq!(made(5, b"is empty\n"), (Err(Error::Other(5)), 1));
        assert_eq!(made(5, &[0xff; 2 * LEAST]), (Err(Error::Other(5)), 2));
    }

    #[test]
    fn other_statuses() {
        assert_eq!(made(2, b""), (Err(Error::OutOfMemory), 1));
        assert_eq!(made(4, b""), (Err(Error::Limit), 1));
        assert_eq!(made(3, b""), (Err(Error::Other(3)), 1));
        assert_eq!(made(SHORT, b""), (Err(Error::Other(1)), 1)); // (a call that asks for no more than it has)
    }
}
