//! What is found in a file and in its columns, and why it is refused, as the library says it.
use crate::error::Error;
use crate::members::{items, members, Value};
use std::fmt::{self, Display, Formatter};

/// How much a finding weighs.
#[derive(Debug, Clone, Copy, PartialEq, Eq, PartialOrd, Ord, Hash)]
pub enum Severity {
    /// It is only worth to know.
    Note,
    /// Readers may take the file otherwise than it is meant.
    Warning,
    /// The file breaks a rule of its format, or contradicts itself.
    Error,
}

impl Severity {
    fn of(word: &str) -> Option<Severity> {
        [Severity::Note, Severity::Warning, Severity::Error]
            .into_iter()
            .find(|severity| severity.word() == word)
    }

    fn word(self) -> &'static str {
        match self {
            Severity::Note => "note",
            Severity::Warning => "warning",
            Severity::Error => "error",
        }
    }
}

impl Display for Severity {
    fn fmt(&self, f: &mut Formatter<'_>) -> fmt::Result {
        f.write_str(self.word())
    }
}

/// What is found in a file or in one of its columns, or why a file is refused or a line no column:
/// a code with its severity, the place, what stands there, what is expected, and what helps
/// (docs/FORMAT.md, 2.8 and 5.1). It is shown as `geoarrow_check` shows it behind the name of a
/// file, or below a column.
#[derive(Debug, Clone, PartialEq, Eq, Hash)]
pub struct Finding(Box<Said>);

#[derive(Debug, Clone, PartialEq, Eq, Hash)]
struct Said {
    json: String,
    severity: Severity,
    code: String,
    expected: String,
    others: Others,
}

/// What an object may lack.
#[derive(Debug, Clone, PartialEq, Eq, Hash, Default)]
struct Others {
    file: Option<String>,
    index: Option<u64>,
    column: Option<String>,
    path: Vec<String>,
    source: Option<String>,
    pointer: Option<String>,
    byte: Option<u64>,
    line: Option<u64>,
    found: Option<String>,
    help: Option<String>,
    more: u64,
}

/// The keys of an object.
const KEYS: [&str; 15] = [
    "kind", "severity", "code", "file", "index", "column", "path", "in", "pointer", "byte", "line",
    "found", "expected", "help", "more",
];

/// How the line of a column begins, and that of a finding.
const COLUMN: &str = "{\"kind\":\"column\",";
const FINDING: &str = "{\"kind\":\"finding\",";

impl Finding {
    /// The finding that an object denotes. A key that is unknown is passed over.
    fn read(json: &str) -> Option<Finding> {
        let (mut severity, mut code, mut expected) = (None, None, None);
        let mut others = Others::default();
        for (key, value) in members(json)? {
            match (key.as_str(), value) {
                ("kind", Value::Text(word)) if word == "finding" => {}
                ("severity", Value::Text(word)) => severity = Severity::of(&word),
                ("code", Value::Text(text)) => code = Some(text),
                ("file", Value::Text(text)) => others.file = Some(text),
                ("index", Value::Number(number)) => others.index = Some(number),
                ("column", Value::Text(text)) => others.column = Some(text),
                ("path", Value::Array(names)) => others.path = texts(names)?,
                ("in", Value::Text(text)) => others.source = Some(text),
                ("pointer", Value::Text(text)) => others.pointer = Some(text),
                ("byte", Value::Number(number)) => others.byte = Some(number),
                ("line", Value::Number(number)) => others.line = Some(number),
                ("found", Value::Text(text)) => others.found = Some(text),
                ("expected", Value::Text(text)) => expected = Some(text),
                ("help", Value::Text(text)) => others.help = Some(text),
                ("more", Value::Number(number)) => others.more = number,
                (known, _) if KEYS.contains(&known) => return None,
                _ => {}
            }
        }
        Some(Finding(Box::new(Said {
            json: json.to_owned(),
            severity: severity?,
            code: code?,
            expected: expected?,
            others,
        })))
    }

    /// The finding of a line, which begins with its kind.
    pub(crate) fn of_line(line: &str) -> Option<Finding> {
        Finding::read(Some(line).filter(|it| it.starts_with(FINDING))?)
    }

    /// Returns how much it weighs.
    #[must_use]
    pub fn severity(&self) -> Severity {
        self.0.severity
    }

    /// Returns the code, as `GeoEncoding` or `Truncated`.
    #[must_use]
    pub fn code(&self) -> &str {
        &self.0.code
    }

    /// Returns the name of the file, where one was given; none of what is found in a column, whose
    /// line has it.
    #[must_use]
    pub fn file(&self) -> Option<&str> {
        self.0.others.file.as_deref()
    }

    /// Returns the place of the column in its schema, from 0, where it is one that is not written.
    #[must_use]
    pub fn index(&self) -> Option<u64> {
        self.0.others.index
    }

    /// Returns the name of the column, where something of the file is of one; none of what
    /// [`column_findings`] gives, whose line has it.
    #[must_use]
    pub fn column(&self) -> Option<&str> {
        self.0.others.column.as_deref()
    }

    /// Returns the names of the child fields down from the column; empty where it is of the column
    /// itself, or of none.
    #[must_use]
    pub fn path(&self) -> &[String] {
        &self.0.others.path
    }

    /// Returns the part of the file in which it stands, as `footer`, `geo` or `extension metadata`,
    /// where that is said.
    #[must_use]
    pub fn source(&self) -> Option<&str> {
        self.0.others.source.as_deref()
    }

    /// Returns the JSON pointer (RFC 6901) into that part; empty for all of it.
    #[must_use]
    pub fn pointer(&self) -> Option<&str> {
        self.0.others.pointer.as_deref()
    }

    /// Returns the byte of that part, from 0, where one tells the place; of a line from 1.
    #[must_use]
    pub fn byte(&self) -> Option<u64> {
        self.0.others.byte
    }

    /// Returns the number of the line, from 1, where one is refused or no column.
    #[must_use]
    pub fn line(&self) -> Option<u64> {
        self.0.others.line
    }

    /// Returns what stands there, where something does, as a value in JSON; cut behind 120
    /// characters.
    #[must_use]
    pub fn found(&self) -> Option<&str> {
        self.0.others.found.as_deref()
    }

    /// Returns what is expected there, in words.
    #[must_use]
    pub fn expected(&self) -> &str {
        &self.0.expected
    }

    /// Returns what helps, in words, where there is something to say.
    #[must_use]
    pub fn help(&self) -> Option<&str> {
        self.0.others.help.as_deref()
    }

    /// Returns how many more of its code there are that are not told one by one; of a line that is
    /// no column, how many more are none.
    #[must_use]
    pub fn more(&self) -> u64 {
        self.0.others.more
    }

    /// Returns all of this as the object of JSON that `geoarrow_check --json` prints: a line
    /// without its line feed, or of a column a part of its line.
    #[must_use]
    pub fn as_json(&self) -> &str {
        &self.0.json
    }
}

impl Display for Finding {
    fn fmt(&self, f: &mut Formatter<'_>) -> fmt::Result {
        write!(f, "{}[{}]", self.severity(), self.code())?;
        let mut between = " ";
        if let Some(column) = self.column() {
            write!(f, "{between}column {column}")?;
            between = ", ";
        }
        if let Some(index) = self.index() {
            write!(f, "{between}column {index}")?;
            between = ", ";
        }
        if !self.path().is_empty() {
            write!(f, "{between}at {}", self.path().join("."))?;
            between = ", ";
        }
        if let Some(source) = self.source() {
            write!(f, "{between}{source}")?;
            between = ", ";
            if let Some(pointer) = self.pointer().filter(|it| !it.is_empty()) {
                write!(f, " {pointer}")?;
            }
        }
        for (word, number) in [("byte", self.byte()), ("line", self.line())] {
            if let Some(number) = number {
                write!(f, "{between}{word} {number}")?;
                between = ", ";
            }
        }
        if self.more() > 0 && self.line().is_none() {
            write!(f, "{between}and {} more", self.more())?;
        }
        f.write_str(": ")?;
        if let Some(found) = self.found() {
            write!(f, "found {found}; ")?;
        }
        write!(f, "expected {}", self.expected())?;
        match self.help() {
            Some(help) => write!(f, ". {help}"),
            None => Ok(()),
        }
    }
}

/// The texts of an array.
fn texts(array: &str) -> Option<Vec<String>> {
    let of = |value| match value {
        Value::Text(text) => Some(text),
        _ => None,
    };
    items(array)?.into_iter().map(of).collect()
}

/// Returns what is found in a file beside its columns: the findings of a report that
/// [`check`](crate::check) or [`check_named`](crate::check_named) gave, in their order, but for
/// those of lines that are no columns, which [`bad_lines`] reads. Its other lines are those of
/// columns, whose own [`column_findings`] reads.
///
/// ```
/// use geoarrow_checked::{findings, Severity};
///
/// let report = "{\"kind\":\"column\",\"index\":0,\"column\":\"id\",\"state\":\"plain\",\"type\":\"int64\"}\n\
///     {\"kind\":\"finding\",\"severity\":\"error\",\"code\":\"GeoEpoch\",\"column\":\"g\",\"in\":\"geo\",\"pointer\":\"/columns/g/epoch\",\"found\":\"\\\"2020\\\"\",\"expected\":\"a number\"}\n";
/// let found = findings(report)?;
/// assert_eq!(found.len(), 1);
/// assert_eq!((found[0].severity(), found[0].code()), (Severity::Error, "GeoEpoch"));
/// assert_eq!(found[0].to_string(), "error[GeoEpoch] column g, geo /columns/g/epoch: found \"2020\"; expected a number");
/// # Ok::<(), geoarrow_checked::Error>(())
/// ```
///
/// # Errors
///
/// [`Error::Line`] with the first line that is neither that of a column nor that of a finding.
pub fn findings(report: &str) -> Result<Vec<Finding>, Error> {
    let mut found = behind(report)?;
    found.retain(|it| it.line().is_none());
    Ok(found)
}

/// Returns why lines are no columns: those of a report that [`check`](crate::check) or
/// [`check_named`](crate::check_named) gave of a file of lines, in their order, at most 100; the
/// last says how many more there are. The other lines of such a file are its columns.
///
/// ```
/// use geoarrow_checked::{bad_lines, check, Options};
///
/// let report = check(b"{}\n{\"name\":\"t\",\"nullable\":true,\"type\":\"utf8\"}\n[]\n", Options::default())?;
/// let bad = bad_lines(&report)?;
/// let places: Vec<_> = bad.iter().map(|it| (it.code(), it.line())).collect();
/// assert_eq!(places, [("BadLine", Some(1)), ("BadLine", Some(3))]);
/// assert_eq!(bad[1].to_string(), "error[BadLine] line 3: found JSON that is no object; expected a JSON object");
/// # Ok::<(), geoarrow_checked::Error>(())
/// ```
///
/// # Errors
///
/// As [`findings`].
pub fn bad_lines(report: &str) -> Result<Vec<Finding>, Error> {
    let mut found = behind(report)?;
    found.retain(|it| it.line().is_some());
    Ok(found)
}

/// All that is found of a file, behind the lines of its columns.
fn behind(report: &str) -> Result<Vec<Finding>, Error> {
    let others = report.lines().filter(|line| !is_of_column(line));
    others
        .map(|line| Finding::of_line(line).ok_or_else(|| unread(line)))
        .collect()
}

/// Returns what is found in a column, of which this is the line of a report: its `findings`, in the
/// order of their codes, why the column is invalid among them. They do not name the column.
///
/// ```
/// use geoarrow_checked::{check, column_findings, Options};
///
/// let line = br#"{"metadata":{"ARROW:extension:metadata":"","ARROW:extension:name":"geoarrow.wkb"},"name":"g","nullable":true,"type":"binary"}"#;
/// let report = check(line, Options::default())?;
/// for line in report.lines().filter(|line| line.starts_with(r#"{"kind":"column","#)) {
///     let found = column_findings(line)?;
///     assert_eq!(found[0].to_string(), "warning[MetadataEmpty] extension metadata: found \"\"; expected no metadata, or {}. It is read as no metadata.");
/// }
/// # Ok::<(), geoarrow_checked::Error>(())
/// ```
///
/// # Errors
///
/// [`Error::Line`] with the line, where it is not that of a column, or one of its findings is not
/// read.
pub fn column_findings(line: &str) -> Result<Vec<Finding>, Error> {
    read_column(line).ok_or_else(|| unread(line))
}

/// The findings of the line of a column.
fn read_column(line: &str) -> Option<Vec<Finding>> {
    if !is_of_column(line) {
        return None;
    }
    let (_, value) = match members(line)?
        .into_iter()
        .find(|(key, _)| key == "findings")
    {
        Some(found) => found,
        None => return Some(Vec::new()),
    };
    let Value::Array(array) = value else {
        return None;
    };
    let of = |value| match value {
        Value::Other(object) => Finding::read(object),
        _ => None,
    };
    items(array)?.into_iter().map(of).collect()
}

/// Whether a line of a report begins as that of a column.
pub(crate) fn is_of_column(line: &str) -> bool {
    line.starts_with(COLUMN)
}

fn unread(line: &str) -> Error {
    Error::Line(line.to_owned())
}

#[cfg(test)]
mod tests;
