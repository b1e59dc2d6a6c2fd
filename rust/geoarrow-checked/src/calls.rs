//! The calls of `include/geoarrow.h` on slices, and on schemas in memory: the only file with
//! `unsafe`. Nothing compares these declarations with the header but the tests.
use crate::error::{error_of, Error};
use crate::filled::{filled, DONE};
use crate::{number_of, text, NewField, Options};
#[cfg(feature = "arrow-schema")]
use arrow_schema::ffi::FFI_ArrowSchema;
use std::ffi::{c_char, c_void};
use std::mem::MaybeUninit;
#[cfg(feature = "arrow-schema")]
use std::ptr;

/// A structure of Arrow's C data interface, as arrow-rs, nanoarrow, DuckDB and GDAL give it: a
/// schema, or a column.
///
/// To make one, and to follow its pointers, is what that interface says
/// (<https://arrow.apache.org/docs/format/CDataInterface.html>). Nothing is released where one is
/// dropped: that is for its owner. A pointer to such a structure of another crate may be cast to
/// one to this.
#[derive(Debug)]
#[repr(C)]
pub struct ArrowSchema {
    /// The type, as a text that ends in a NUL.
    pub format: *const c_char,
    /// The name, as a text that ends in a NUL, or NULL.
    pub name: *const c_char,
    /// How many entries there are, and of each the key and the text, both behind their length, all
    /// of these of four bytes; or NULL.
    pub metadata: *const c_char,
    /// A sum: 1 of a dictionary whose values have an order, 2 of a column that may be null, 4 of a
    /// map whose keys are sorted.
    pub flags: i64,
    /// How many children there are.
    pub n_children: i64,
    /// As many pointers to structures; it may be NULL where there are none.
    pub children: *mut *mut ArrowSchema,
    /// The structure of a dictionary's values, or NULL.
    pub dictionary: *mut ArrowSchema,
    /// What frees the structure and all below, and makes this member NULL; NULL of one that is
    /// released.
    pub release: Option<unsafe extern "C" fn(*mut ArrowSchema)>,
    /// What `release` needs.
    pub private_data: *mut c_void,
}

unsafe extern "C" {
    fn geoarrow_version() -> u32;
    fn geoarrow_answer(
        command: u8,
        line: *const u8,
        line_len: usize,
        out: *mut u8,
        out_len: usize,
        len: *mut usize,
    ) -> u8;
    fn geoarrow_run(
        command: u8,
        input: *const u8,
        input_len: usize,
        out: *mut u8,
        out_len: usize,
        len: *mut usize,
    ) -> u8;
    fn geoarrow_report(
        options: u8,
        name: *const u8,
        name_len: usize,
        bytes: *const u8,
        bytes_len: usize,
        out: *mut u8,
        out_len: usize,
        len: *mut usize,
    ) -> u8;
    fn geoarrow_same(
        options: u8,
        first: *const u8,
        first_len: usize,
        other: *const u8,
        other_len: usize,
        name: *const u8,
        name_len: usize,
        out: *mut u8,
        out_len: usize,
        len: *mut usize,
    ) -> u8;
    fn geoarrow_canonical(
        bytes: *const u8,
        bytes_len: usize,
        out: *mut u8,
        out_len: usize,
        len: *mut usize,
    ) -> u8;
    fn geoarrow_lines(
        bytes: *const u8,
        bytes_len: usize,
        out: *mut u8,
        out_len: usize,
        len: *mut usize,
    ) -> u8;
    fn geoarrow_write_schema(
        lines: *const u8,
        lines_len: usize,
        out: *mut u8,
        out_len: usize,
        len: *mut usize,
    ) -> u8;
    fn geoarrow_make(
        name: *const u8,
        name_len: usize,
        kind: *const u8,
        kind_len: usize,
        nullable: u8,
        crs: *const u8,
        crs_len: usize,
        crs_type: *const u8,
        crs_type_len: usize,
        edges: *const u8,
        edges_len: usize,
        out: *mut u8,
        out_len: usize,
        len: *mut usize,
    ) -> u8;
    fn geoarrow_schema_of_lines(
        lines: *const u8,
        lines_len: usize,
        schema: *mut ArrowSchema,
        out: *mut u8,
        out_len: usize,
        len: *mut usize,
    ) -> u8;
    fn geoarrow_read_schema(
        options: u8,
        schema: *const ArrowSchema,
        out: *mut u8,
        out_len: usize,
        len: *mut usize,
    ) -> u8;
    fn geoarrow_read_field(
        options: u8,
        field: *const ArrowSchema,
        out: *mut u8,
        out_len: usize,
        len: *mut usize,
    ) -> u8;
    fn geoarrow_lines_of_schema(
        schema: *const ArrowSchema,
        out: *mut u8,
        out_len: usize,
        len: *mut usize,
    ) -> u8;
    fn geoarrow_lines_of_field(
        field: *const ArrowSchema,
        out: *mut u8,
        out_len: usize,
        len: *mut usize,
    ) -> u8;
    fn geoarrow_is_schema(may_have_name: u8, schema: *const ArrowSchema, is: *mut u8) -> u8;
    fn geoarrow_stream_of_schema(
        schema: *const ArrowSchema,
        out: *mut u8,
        out_len: usize,
        len: *mut usize,
    ) -> u8;
}

pub(crate) fn version() -> u32 {
    // SAFETY: the call takes nothing, and reads no memory.
    unsafe { geoarrow_version() }
}

// SAFETY, of the seven calls below: the pointers and lengths are those of slices, of a text and of a
// `usize` that are borrowed for the call. None is null, also of an empty one, and none of them is
// longer than `isize::MAX`. `out` and `len` are borrowed mutably, so they overlap nothing, and
// nobody else uses them.

pub(crate) fn answer(command: u8, line: &[u8]) -> Result<Vec<u8>, Error> {
    filled(line.len(), |out, len| unsafe {
        geoarrow_answer(
            command,
            line.as_ptr(),
            line.len(),
            out.as_mut_ptr(),
            out.len(),
            len,
        )
    })
}

pub(crate) fn run(command: u8, input: &[u8]) -> Result<Vec<u8>, Error> {
    filled(input.len(), |out, len| unsafe {
        geoarrow_run(
            command,
            input.as_ptr(),
            input.len(),
            out.as_mut_ptr(),
            out.len(),
            len,
        )
    })
}

pub(crate) fn report(options: u8, name: &str, bytes: &[u8]) -> Result<Vec<u8>, Error> {
    filled(bytes.len().saturating_add(name.len()), |out, len| unsafe {
        geoarrow_report(
            options,
            name.as_ptr(),
            name.len(),
            bytes.as_ptr(),
            bytes.len(),
            out.as_mut_ptr(),
            out.len(),
            len,
        )
    })
}

pub(crate) fn same(options: u8, first: &[u8], name: &str, other: &[u8]) -> Result<Vec<u8>, Error> {
    filled(name.len(), |out, len| unsafe {
        geoarrow_same(
            options,
            first.as_ptr(),
            first.len(),
            other.as_ptr(),
            other.len(),
            name.as_ptr(),
            name.len(),
            out.as_mut_ptr(),
            out.len(),
            len,
        )
    })
}

pub(crate) fn canonical(bytes: &[u8]) -> Result<Vec<u8>, Error> {
    filled(bytes.len(), |out, len| unsafe {
        geoarrow_canonical(
            bytes.as_ptr(),
            bytes.len(),
            out.as_mut_ptr(),
            out.len(),
            len,
        )
    })
}

pub(crate) fn lines(bytes: &[u8]) -> Result<Vec<u8>, Error> {
    filled(bytes.len(), |out, len| unsafe {
        geoarrow_lines(
            bytes.as_ptr(),
            bytes.len(),
            out.as_mut_ptr(),
            out.len(),
            len,
        )
    })
}

pub(crate) fn write_schema(lines: &[u8]) -> Result<Vec<u8>, Error> {
    filled(lines.len(), |out, len| unsafe {
        geoarrow_write_schema(
            lines.as_ptr(),
            lines.len(),
            out.as_mut_ptr(),
            out.len(),
            len,
        )
    })
}

pub(crate) fn make(
    new: &NewField<'_>,
    kind: &str,
    crs_type: &str,
    edges: &str,
) -> Result<Vec<u8>, Error> {
    filled(new.crs.len(), |out, len| unsafe {
        geoarrow_make(
            new.name.as_ptr(),
            new.name.len(),
            kind.as_ptr(),
            kind.len(),
            u8::from(new.nullable),
            new.crs.as_ptr(),
            new.crs.len(),
            crs_type.as_ptr(),
            crs_type.len(),
            edges.as_ptr(),
            edges.len(),
            out.as_mut_ptr(),
            out.len(),
            len,
        )
    })
}

/// Makes the schema whose columns the lines denote, one a line, in memory, without metadata of its
/// own (docs/FORMAT.md, 2.7): blank lines are passed over. It is the caller's to release, or to
/// hand on; dropping it releases nothing.
///
/// # Errors
///
/// [`Error::Refused`] where a line denotes no column, and where no structures can have the columns,
/// with the code `BadSchema`; [`Error::OutOfMemory`].
pub fn schema_of_lines(lines: &[u8]) -> Result<ArrowSchema, Error> {
    let mut made = MaybeUninit::uninit();
    let schema = made.as_mut_ptr();
    filled(0, |out, len| {
        // SAFETY: the lines, `out` and `len` are as in the calls above; `schema` leads to room for a
        // structure that nothing else uses, and the call does not read it.
        unsafe {
            geoarrow_schema_of_lines(
                lines.as_ptr(),
                lines.len(),
                schema,
                out.as_mut_ptr(),
                out.len(),
                len,
            )
        }
    })?;
    // SAFETY: the status is that at which the call has written all of the structure.
    Ok(unsafe { made.assume_init() })
}

/// A guess at half of what is written of a schema: 64 bytes for each of its columns.
///
/// # Safety
///
/// As [`check_schema`].
unsafe fn guess_of(schema: *const ArrowSchema) -> usize {
    if schema.is_null() {
        return 0;
    }
    // SAFETY: the caller answers for the schema; of one that is released nothing else is read.
    let columns = unsafe { (*schema).release.map_or(0, |_| (*schema).n_children) };
    usize::try_from(columns).map_or(0, |count| count.saturating_mul(64))
}

/// Reports what each column of a schema in memory holds, and what is found in its metadata at
/// `geo`, as [`check`](crate::check) does of an Arrow stream of it: its columns are its children.
/// It is read, not written to, and not released.
///
/// # Errors
///
/// [`Error::Refused`] where the schema is refused, with the code `BadSchema`, and at
/// [`index`](crate::Finding::index) the column that is broken, if one is, or where the report would
/// be too large; [`Error::OutOfMemory`].
///
/// # Safety
///
/// The pointer is NULL, or leads to a structure as Arrow's C data interface has it, down to its
/// last child and dictionary: a format, a name and metadata that are not NULL lead to a text that
/// ends in a NUL, or to metadata as long as their numbers say, and `children` to `n_children`
/// pointers, each to a structure or NULL. Until the call returns nobody frees or writes to any of
/// it. What else may be wrong is refused: NULL, structures that are released, wrong counts, formats
/// and texts, circles and what is too deep.
pub unsafe fn check_schema(schema: *const ArrowSchema, options: Options) -> Result<String, Error> {
    // SAFETY: the caller answers for the schema.
    let guess = unsafe { guess_of(schema) };
    let written = filled(guess, |out, len| {
        // SAFETY: the caller answers for the schema; `out` and `len` are as in the calls above.
        unsafe {
            geoarrow_read_schema(number_of(options), schema, out.as_mut_ptr(), out.len(), len)
        }
    });
    written.map(text)
}

/// Reports what one column holds, whatever its format is: as [`check_schema`] does of a schema with
/// this column alone, and without metadata.
///
/// # Errors
///
/// As [`check_schema`]; the index is 0.
///
/// # Safety
///
/// As [`check_schema`].
pub unsafe fn check_field(field: *const ArrowSchema, options: Options) -> Result<String, Error> {
    let written = filled(0, |out, len| {
        // SAFETY: as in `check_schema`.
        unsafe { geoarrow_read_field(number_of(options), field, out.as_mut_ptr(), out.len(), len) }
    });
    written.map(text)
}

/// Returns the columns of a schema in memory as lines (docs/FORMAT.md, 2.7), in their order, each
/// with a line feed behind it. Its own metadata are not told.
///
/// # Errors
///
/// [`Error::Refused`] where the schema is refused, as by [`check_schema`]; [`Error::OutOfMemory`].
///
/// # Safety
///
/// As [`check_schema`].
pub unsafe fn schema_lines(schema: *const ArrowSchema) -> Result<String, Error> {
    // SAFETY: the caller answers for the schema.
    let guess = unsafe { guess_of(schema) };
    let written = filled(guess, |out, len| {
        // SAFETY: as in `check_schema`.
        unsafe { geoarrow_lines_of_schema(schema, out.as_mut_ptr(), out.len(), len) }
    });
    written.map(text)
}

/// Returns the line of one column in memory, whatever its format is, without a line feed.
///
/// # Errors
///
/// As [`schema_lines`]; the index is 0.
///
/// # Safety
///
/// As [`check_schema`].
pub unsafe fn field_line(field: *const ArrowSchema) -> Result<String, Error> {
    let written = filled(0, |out, len| {
        // SAFETY: as in `check_schema`.
        unsafe { geoarrow_lines_of_field(field, out.as_mut_ptr(), out.len(), len) }
    });
    let mut line = text(written?);
    if line.ends_with('\n') {
        line.pop();
    }
    Ok(line)
}

/// Tells whether a structure is to be read as a schema, where what gives it gives schemas and
/// columns alike: whether it has the format `+s`, no dictionary, no extension name in its metadata
/// and, unless it may have one, as the first of a stream may, no name. Of a structure that is
/// refused it is so: [`check_schema`] says why.
///
/// # Errors
///
/// [`Error::OutOfMemory`].
///
/// # Safety
///
/// As [`check_schema`]. (Nothing that lies in the structure is looked at.)
pub unsafe fn is_schema(schema: *const ArrowSchema, may_have_name: bool) -> Result<bool, Error> {
    let mut is = 0;
    // SAFETY: the caller answers for the schema; `is` is borrowed mutably.
    match unsafe { geoarrow_is_schema(u8::from(may_have_name), schema, &mut is) } {
        DONE => Ok(is == 1),
        other => Err(error_of(other, b"")),
    }
}

/// Returns an Arrow stream of a schema in memory, with its metadata, which all calls on bytes take
/// (docs/FORMAT.md, 2.7 and 3.6). It has the schema alone: no batches, and no mark of the stream's
/// end.
///
/// # Errors
///
/// [`Error::Refused`] where the schema is refused, as by [`check_schema`], or no message can hold
/// it; [`Error::OutOfMemory`].
///
/// # Safety
///
/// As [`check_schema`].
pub unsafe fn schema_stream(schema: *const ArrowSchema) -> Result<Vec<u8>, Error> {
    // SAFETY: the caller answers for the schema.
    let guess = unsafe { guess_of(schema) };
    filled(guess, |out, len| {
        // SAFETY: as in `check_schema`.
        unsafe { geoarrow_stream_of_schema(schema, out.as_mut_ptr(), out.len(), len) }
    })
}

#[cfg(feature = "arrow-schema")]
const _: () = assert!(size_of::<FFI_ArrowSchema>() == size_of::<ArrowSchema>());

// SAFETY, of the two calls below: an FFI_ArrowSchema is the structure of Arrow's C data interface,
// with the nine members of an ArrowSchema. Its members are arrow-rs' own: a safe program cannot
// change them, and it is borrowed for the call.

#[cfg(feature = "arrow-schema")]
pub(crate) fn check_arrow(schema: &FFI_ArrowSchema, options: Options) -> Result<String, Error> {
    unsafe { check_schema(ptr::from_ref(schema).cast(), options) }
}

#[cfg(feature = "arrow-schema")]
pub(crate) fn arrow_line(field: &FFI_ArrowSchema) -> Result<String, Error> {
    unsafe { field_line(ptr::from_ref(field).cast()) }
}
