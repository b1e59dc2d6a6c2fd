//! What each column of an Arrow schema holds of GeoArrow's geometry types, and why it is invalid:
//! safe Rust over the calls that `include/geoarrow.h` declares, whose code is proved.
//! `docs/FORMAT.md` has the lines, answers and reports.
//!
//! ```
//! use geoarrow_checked::{answer, check, Command, Options};
//!
//! let line = br#"{"metadata":{"ARROW:extension:name":"geoarrow.wkb"},"name":"g","nullable":true,"type":"binary"}"#;
//! assert_eq!(answer(Command::Read, line)?, "wkb - - -");
//! let report = check(line, Options::default())?;
//! assert!(report.contains(r#""state":"geometry","type":"wkb - -""#));
//! # Ok::<(), geoarrow_checked::Error>(())
//! ```
//!
//! # What a program owes
//!
//! No slice can break what is owed for the arguments; the calls on a schema in memory, by its
//! pointer, are `unsafe`, and say what is owed for it. With the feature `arrow-schema` the module
//! `arrow` makes them of arrow-rs' fields and schemas, and is safe. Of a program is asked that a
//! thread which calls has 256 KiB of stack left, as those of `std` have by default, that no call is
//! made from a signal handler or from the forked child of a process with threads, and that
//! `malloc`, `realloc` and `free` of the program are those of one allocator. Nothing is kept from
//! call to call: any number of threads may call.
#![forbid(unsafe_op_in_unsafe_fn)]
#![deny(missing_docs)]

mod calls;
mod error;
mod facts;
mod filled;
mod finding;
mod made;
mod members;

#[cfg(feature = "arrow-schema")]
pub mod arrow;

pub use calls::{
    check_field, check_schema, field_line, is_schema, schema_lines, schema_of_lines, schema_stream,
    ArrowSchema,
};
pub use error::Error;
pub use facts::{column_facts, Facts, Source, Verdict};
pub use finding::{bad_lines, column_findings, findings, Finding, Severity};
pub use made::{
    make_line, CoordType, CrsType, Dimension, Edges, GeometryType, Kind, NewField, Serialized,
};

/// What is asked of a line.
#[derive(Debug, Clone, Copy, PartialEq, Eq, Hash)]
#[repr(u8)]
pub enum Command {
    /// The type that the field says it holds.
    Read = 0,
    /// The same, and a type that is inferred from the data type where the field has no extension
    /// name.
    Infer = 1,
    /// The line of the field as GeoArrow writes it.
    Canon = 2,
    /// What is said of the field as a column of a schema.
    Columns = 3,
}

/// Returns the answer to one line, without line feeds (docs/FORMAT.md, 2.1 and 2.2). A line that is
/// no field has an answer too: `error field`.
///
/// # Errors
///
/// [`Error::OutOfMemory`].
pub fn answer(command: Command, line: &[u8]) -> Result<String, Error> {
    calls::answer(command as u8, line).map(text)
}

/// Returns the answers to all lines of an input, each with a line feed behind it.
///
/// # Errors
///
/// [`Error::Limit`] where there are more than 1,000,000 lines, or one has more than 1,048,576
/// bytes; [`Error::OutOfMemory`].
pub fn run(command: Command, input: &[u8]) -> Result<String, Error> {
    calls::run(command as u8, input).map(text)
}

/// What a report says beside what is wrong.
#[derive(Debug, Clone, Copy, PartialEq, Eq, Hash, Default)]
pub struct Options {
    /// A column without an extension name is taken for what is inferred from its data type.
    pub infer: bool,
    /// What is only worth to know is said: among the findings of a column, and those of the file.
    pub notes: bool,
}

/// Reports what a file holds, from its bytes: a line of JSON for each of its columns, and behind
/// them one for each line that is no column (2.8), and for each finding beside these, as in the
/// footer and the GeoParquet metadata of a Parquet file, each with a line feed behind it
/// (docs/FORMAT.md, 2.5 to 2.7, 5.1). [`findings`] and [`column_findings`] read what is found, and
/// [`bad_lines`] which lines are no columns. An Arrow file (Feather), an Arrow stream, a Parquet
/// file and lines are told apart by their first bytes.
///
/// # Errors
///
/// [`Error::Refused`], with why and where; [`Error::OutOfMemory`].
pub fn check(bytes: &[u8], options: Options) -> Result<String, Error> {
    check_named("", bytes, options)
}

/// Reports the same, with the name of the file in each line, and in the [`Finding`] where the file
/// is refused. An empty name is none.
///
/// ```
/// use geoarrow_checked::{check_named, Error, Options};
///
/// let found = check_named("roads.jsonl", b"{\n\"name\":\"a\"}\n", Options::default());
/// let Err(Error::Refused(why)) = found else { panic!("the first line is read") };
/// assert_eq!((why.code(), why.line()), ("BadLine", Some(1)));
/// assert_eq!(why.help(), Some("One object on each line: try jq -c . FILE"));
/// assert_eq!(why.file(), Some("roads.jsonl"));
/// ```
///
/// # Errors
///
/// As [`check`].
pub fn check_named(name: &str, bytes: &[u8], options: Options) -> Result<String, Error> {
    calls::report(number_of(options), name, bytes).map(text)
}

/// The number of options (include/geoarrow.h).
fn number_of(options: Options) -> u8 {
    u8::from(options.infer) | u8::from(options.notes) << 1
}

/// Compares the columns of a file with those of the first, from the bytes of both, as
/// `geoarrow_check --same` does (docs/FORMAT.md, 2.9), and gives a [`Finding`] for each difference,
/// first of the columns of the other file, in their order, then of those that it lacks; none where
/// nothing differs. A column is compared with that of its name in the first file, the second of a
/// name with the second: by its type, its encoding, its edges and its CRS. Types that are inferred
/// are compared where the options ask for them, and a CRS of which nothing tells whether it is that
/// of the first file is a note. Of lines, those that are no columns are passed over.
///
/// ```
/// use geoarrow_checked::{same, Error, Options};
///
/// let first = br#"{"name":"id","nullable":true,"type":"int64"}"#;
/// let other = br#"{"name":"id","nullable":true,"type":"int32"}"#;
/// let found = same(first, other, Options::default())?;
/// assert_eq!(found[0].to_string(), "error[NotSame] column id: found int32; expected int64. The first file has another type.");
/// assert!(same(first, first, Options::default())?.is_empty());
/// let Err(Error::FirstRefused(why)) = same(b"", other, Options::default()) else { panic!("the first file is read") };
/// assert_eq!(why.code(), "EmptyFile");
/// # Ok::<(), geoarrow_checked::Error>(())
/// ```
///
/// # Errors
///
/// [`Error::FirstRefused`] where the first file is refused, and [`Error::Refused`] where the other
/// is, with why and where; [`Error::OutOfMemory`].
pub fn same(first: &[u8], other: &[u8], options: Options) -> Result<Vec<Finding>, Error> {
    same_named(first, "", other, options)
}

/// Compares the same, with the name of the other file in each [`Finding`], also in the one where it
/// is refused. An empty name is none.
///
/// # Errors
///
/// As [`same`].
pub fn same_named(
    first: &[u8],
    name: &str,
    other: &[u8],
    options: Options,
) -> Result<Vec<Finding>, Error> {
    findings(&text(calls::same(number_of(options), first, name, other)?))
}

/// Returns the columns of a file in normal form, from its bytes, as lines, each with a line feed,
/// in their order, as `geoarrow_check --canonical --lines` prints them (docs/FORMAT.md, 2.10): a
/// column that holds geometries by its extension name with the data type, the extension name and
/// the metadata that GeoArrow writes for them, and any other as it is. The columns are those of
/// [`check`], of a GeoParquet file by its metadata, where no types are inferred; what is found in
/// them is not told. [`write_schema`] makes an Arrow stream of the lines. Of lines, those that are
/// no columns are left out.
///
/// ```
/// use geoarrow_checked::{canonical, write_schema};
///
/// let lines = br#"{"metadata":{"ARROW:extension:name":"ogc.wkb"},"name":"g","nullable":true,"type":"binary"}"#;
/// let found = canonical(lines)?;
/// let wanted = r#"{"metadata":{"ARROW:extension:name":"geoarrow.wkb"},"name":"g","nullable":true,"type":"binary"}"#;
/// assert_eq!(found, format!("{wanted}\n"));
/// assert_eq!(canonical(&write_schema(found.as_bytes())?)?, found);
/// # Ok::<(), geoarrow_checked::Error>(())
/// ```
///
/// # Errors
///
/// [`Error::Refused`] where the bytes are refused, with why and where; [`Error::OutOfMemory`].
pub fn canonical(source: &[u8]) -> Result<String, Error> {
    Ok(text(calls::canonical(source)?))
}

/// Returns the columns of a file, from its bytes, as lines, each with a line feed, in their order, as
/// `geoarrow_check --lines` prints them (docs/FORMAT.md, 2.7): those of [`canonical`], as they stand
/// in the file.
///
/// ```
/// use geoarrow_checked::{lines, write_schema};
///
/// let line = br#"{"name":"g","nullable":true,"type":"binary"}"#;
/// assert_eq!(lines(&write_schema(line)?)?.trim_end().as_bytes(), line);
/// # Ok::<(), geoarrow_checked::Error>(())
/// ```
///
/// # Errors
///
/// [`Error::Refused`] where the bytes are refused, with why and where; [`Error::OutOfMemory`].
pub fn lines(source: &[u8]) -> Result<String, Error> {
    Ok(text(calls::lines(source)?))
}

/// Returns an Arrow stream of the schema whose columns the lines denote, one a line
/// (docs/FORMAT.md, 2.7 and 3.6). It has the schema alone: no batches, and no mark of the stream's
/// end.
///
/// # Errors
///
/// [`Error::Refused`] where a line is no column, where no message can hold the type of a column,
/// and where the message would be too large; [`Error::OutOfMemory`].
pub fn write_schema(lines: &[u8]) -> Result<Vec<u8>, Error> {
    calls::write_schema(lines)
}

/// Returns the version of the library that is linked, as 20000 for 2.0.0.
#[must_use]
pub fn version() -> u32 {
    calls::version()
}

/// The text of bytes that a call wrote, which are UTF-8.
fn text(bytes: Vec<u8>) -> String {
    match String::from_utf8(bytes) {
        Ok(text) => text,
        Err(other) => String::from_utf8_lossy(other.as_bytes()).into_owned(),
    }
}
