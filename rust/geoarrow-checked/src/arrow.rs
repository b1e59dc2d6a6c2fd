//! The report and the lines of fields and schemas of arrow-rs, which makes of each the structure
//! that the calls read. It does so by recursion, so it needs stack for each level of a type.
use crate::{calls, Error, Options};
use arrow_schema::ffi::FFI_ArrowSchema;
use arrow_schema::{ArrowError, Field, Fields, Schema};
use std::panic::{catch_unwind, UnwindSafe};

/// Reports what each of these fields holds, as columns of a schema without metadata: as
/// [`check`](crate::check) does; nothing of no fields.
///
/// # Errors
///
/// As [`check_arrow_schema`].
pub fn check_fields<'a>(
    fields: impl IntoIterator<Item = &'a Field>,
    options: Options,
) -> Result<String, Error> {
    let fields: Fields = fields.into_iter().cloned().collect();
    check_arrow_schema(&Schema::new(fields), options)
}

/// Reports what each column of a schema holds, and what is found in its metadata at `geo`: as
/// [`check`](crate::check) does of an Arrow stream of it.
///
/// # Errors
///
/// [`Error::Refused`] where the library refuses the schema, as where one of its columns nests too
/// deep, at whose index it is, and where the report would be too large; [`Error::Arrow`] where
/// arrow-rs makes no structure of it, as of a name with a NUL, at which it panics (that is caught,
/// but its panic hook speaks); [`Error::OutOfMemory`].
pub fn check_arrow_schema(schema: &Schema, options: Options) -> Result<String, Error> {
    calls::check_arrow(&made(|| schema.try_into())?, options)
}

/// Returns the line of a field (docs/FORMAT.md, 2.1 and 2.7). A type that is none of the 26 of
/// docs/FORMAT.md, 1.1, or has one anywhere below, is there the notation of the type (3.4).
///
/// # Errors
///
/// As [`check_arrow_schema`].
pub fn field_line(field: &Field) -> Result<String, Error> {
    calls::arrow_line(&made(|| field.try_into())?)
}

/// Makes a structure. arrow-rs panics at a name or a time zone with a NUL, which no structure
/// holds.
fn made(
    make: impl FnOnce() -> Result<FFI_ArrowSchema, ArrowError> + UnwindSafe,
) -> Result<FFI_ArrowSchema, Error> {
    match catch_unwind(make) {
        Ok(made) => made.map_err(|error| Error::Arrow(error.to_string())),
        Err(_) => Err(Error::Arrow(
            "arrow-rs panics, as at a name with a NUL".into(),
        )),
    }
}

#[cfg(test)]
mod tests;
