//! Where the repository's data are, and its rows (docs/TESTS.md).
#![allow(dead_code)]
use geoarrow_checked::{Error, Finding};
use std::fmt::Debug;
use std::fs;
use std::path::{Path, PathBuf};

pub fn top() -> PathBuf {
    Path::new(env!("CARGO_MANIFEST_DIR")).join("../..")
}

pub fn read(path: &str) -> Vec<u8> {
    let path = top().join(path);
    fs::read(&path).unwrap_or_else(|error| panic!("{}: {error}", path.display()))
}

pub fn from_hex(digits: &[u8]) -> Vec<u8> {
    let text = std::str::from_utf8(digits).unwrap();
    (0..text.len() / 2)
        .map(|at| u8::from_str_radix(&text[2 * at..2 * at + 2], 16).unwrap())
        .collect()
}

/// Why bytes are refused.
pub fn refused<T: Debug>(found: Result<T, Error>) -> Finding {
    match found {
        Err(Error::Refused(finding)) => finding,
        other => panic!("not refused: {other:?}"),
    }
}

/// The object that is made of what a finding says; one that is a line has its kind.
pub fn object_of(finding: &Finding, is_line: bool) -> String {
    let text = |key, text: Option<&str>| text.map(|it| format!("\"{key}\":{}", quoted(it)));
    let number = |key, number: Option<u64>| number.map(|it| format!("\"{key}\":{it}"));
    let path: Vec<_> = finding.path().iter().map(|it| quoted(it)).collect();
    let path = (!path.is_empty()).then(|| format!("\"path\":[{}]", path.join(",")));
    let members = [
        text("kind", Some("finding").filter(|_| is_line)),
        text("severity", Some(&finding.severity().to_string())),
        text("code", Some(finding.code())),
        text("file", finding.file()),
        number("index", finding.index()),
        text("column", finding.column()),
        path,
        text("in", finding.source()),
        text("pointer", finding.pointer()),
        number("byte", finding.byte()),
        number("line", finding.line()),
        text("found", finding.found()),
        text("expected", Some(finding.expected())),
        text("help", finding.help()),
        number("more", Some(finding.more()).filter(|it| *it > 0)),
    ];
    let members: Vec<_> = members.into_iter().flatten().collect();
    format!("{{{}}}", members.join(","))
}

/// A text in JSON, in which no control character stands.
pub fn quoted(text: &str) -> String {
    format!("\"{}\"", text.replace('\\', r"\\").replace('"', "\\\""))
}

/// A row: the command, its text and the answer.
pub type Row = (String, Vec<u8>, Vec<u8>);

/// The rows of the files of a folder, with what is spelled in short spelled out.
pub fn rows(folder: &str) -> Vec<Row> {
    let mut files: Vec<PathBuf> = fs::read_dir(top().join(folder))
        .unwrap()
        .map(|entry| entry.unwrap().path())
        .collect();
    files.retain(|path| {
        path.extension()
            .is_some_and(|extension| extension == "rows")
    });
    files.sort();
    files
        .iter()
        .flat_map(|path| rows_of(&fs::read(path).unwrap()))
        .collect()
}

pub fn rows_of(bytes: &[u8]) -> Vec<Row> {
    let mut found = Vec::new();
    let mut lines = bytes.split(|byte| *byte == b'\n');
    while let Some(line) = lines.next() {
        if matches!(line.first(), None | Some(b'#' | b'=')) {
            continue;
        }
        let line = line
            .strip_prefix(b"* ")
            .or(line.strip_prefix(b"unaided "))
            .unwrap_or(line);
        let end = line
            .iter()
            .position(|byte| *byte == b' ')
            .unwrap_or(line.len());
        let answer = lines.next().unwrap_or_default();
        let command = String::from_utf8_lossy(&line[..end]).into_owned();
        found.push((
            command,
            spelled(line.get(end + 1..).unwrap_or_default()),
            spelled(answer),
        ));
    }
    found
}

/// A text that is spelled in short: `<<3|,|f%>>` is `f0,f1,f2`, and `<<1..3|,|f%>>` is `f1,f2`.
fn spelled(text: &[u8]) -> Vec<u8> {
    let mut whole = Vec::new();
    let mut at = 0;
    while at < text.len() {
        match repeated(&text[at..]) {
            Some((spelled, length)) => {
                whole.extend(spelled);
                at += length;
            }
            None => {
                whole.push(text[at]);
                at += 1;
            }
        }
    }
    whole
}

/// What the text begins with, spelled out, and how long that is in short.
fn repeated(text: &[u8]) -> Option<(Vec<u8>, usize)> {
    let inside = text.strip_prefix(b"<<")?;
    let end = (0..inside.len()).find(|at| {
        inside[*at..].starts_with(b">>")
            && inside[..*at].iter().filter(|byte| **byte == b'|').count() > 1
    })?;
    let mut parts = inside[..end].splitn(3, |byte| *byte == b'|');
    let (range, between, one) = (
        std::str::from_utf8(parts.next()?).ok()?,
        parts.next()?,
        parts.next()?,
    );
    let (first, past) = range.split_once("..").unwrap_or(("0", range));
    let (first, past): (usize, usize) = (first.parse().ok()?, past.parse().ok()?);
    let mut whole = Vec::new();
    for number in first..past {
        if number > first {
            whole.extend(between);
        }
        for byte in one {
            match byte {
                b'%' => whole.extend(number.to_string().bytes()),
                other => whole.push(*other),
            }
        }
    }
    Some((whole, end + 4))
}
