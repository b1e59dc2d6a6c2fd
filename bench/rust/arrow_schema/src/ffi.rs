//! Structures of Arrow's C data interface for a data type, a field and a schema, as its page lays them out. Test code: a
//! text with a NUL panics, as it does in the real crate.
use crate::{ArrowError, DataType, Field, IntervalUnit, Schema, TimeUnit, UnionFields, UnionMode};
use std::collections::HashMap;
use std::ffi::{c_char, c_void, CString};
use std::ptr;

const DICTIONARY_ORDERED: i64 = 1;
const NULLABLE: i64 = 2;
const MAP_KEYS_SORTED: i64 = 4;

#[derive(Debug)]
#[repr(C)]
pub struct FFI_ArrowSchema {
    format: *const c_char,
    name: *const c_char,
    metadata: *const c_char,
    flags: i64,
    n_children: i64,
    children: *mut *mut FFI_ArrowSchema,
    dictionary: *mut FFI_ArrowSchema,
    release: Option<unsafe extern "C" fn(*mut FFI_ArrowSchema)>,
    private_data: *mut c_void,
}

/// What the pointers of a structure lead to.
struct Held {
    format: CString,
    name: Option<CString>,
    metadata: Option<Vec<u8>>,
    children: Vec<*mut FFI_ArrowSchema>,
    dictionary: *mut FFI_ArrowSchema,
}

impl Drop for Held {
    fn drop(&mut self) {
        for part in self.children.drain(..).chain([self.dictionary]) {
            if !part.is_null() {
                // SAFETY: `boxed` made it, and nothing else frees it.
                drop(unsafe { Box::from_raw(part) });
            }
        }
    }
}

impl Drop for FFI_ArrowSchema {
    fn drop(&mut self) {
        if let Some(release) = self.release {
            // SAFETY: the structure is not released, and its `release` is asked once.
            unsafe { release(self) };
        }
    }
}

unsafe extern "C" fn release(schema: *mut FFI_ArrowSchema) {
    // SAFETY: `of` made what is held, and a structure that is released is not released again.
    unsafe {
        drop(Box::from_raw((*schema).private_data.cast::<Held>()));
        (*schema).release = None;
    }
}

fn of(held: Held, flags: i64) -> FFI_ArrowSchema {
    let mut held = Box::new(held);
    FFI_ArrowSchema {
        format: held.format.as_ptr(),
        name: held.name.as_ref().map_or(ptr::null(), |name| name.as_ptr()),
        metadata: held
            .metadata
            .as_ref()
            .map_or(ptr::null(), |bytes| bytes.as_ptr().cast()),
        flags,
        n_children: held.children.len() as i64,
        children: held.children.as_mut_ptr(),
        dictionary: held.dictionary,
        release: Some(release),
        private_data: Box::into_raw(held).cast(),
    }
}

fn boxed(schema: FFI_ArrowSchema) -> *mut FFI_ArrowSchema {
    Box::into_raw(Box::new(schema))
}

impl TryFrom<&DataType> for FFI_ArrowSchema {
    type Error = ArrowError;

    fn try_from(kind: &DataType) -> Result<Self, ArrowError> {
        Ok(of(held_of(kind, None, &HashMap::new())?, flags_of(kind)))
    }
}

impl TryFrom<&Field> for FFI_ArrowSchema {
    type Error = ArrowError;

    fn try_from(field: &Field) -> Result<Self, ArrowError> {
        let held = held_of(&field.data_type, Some(&field.name), &field.metadata)?;
        let nullable = if field.nullable { NULLABLE } else { 0 };
        let ordered = if field.dict_is_ordered {
            DICTIONARY_ORDERED
        } else {
            0
        };
        Ok(of(held, flags_of(&field.data_type) | nullable | ordered))
    }
}

impl TryFrom<&Schema> for FFI_ArrowSchema {
    type Error = ArrowError;

    fn try_from(schema: &Schema) -> Result<Self, ArrowError> {
        let columns = DataType::Struct(schema.fields.clone());
        Ok(of(held_of(&columns, None, &schema.metadata)?, 0))
    }
}

fn flags_of(kind: &DataType) -> i64 {
    match kind {
        DataType::Map(_, true) => MAP_KEYS_SORTED,
        _ => 0,
    }
}

fn held_of(
    kind: &DataType,
    name: Option<&str>,
    metadata: &HashMap<String, String>,
) -> Result<Held, ArrowError> {
    let text = |text: &str| CString::new(text).expect("a text without a NUL");
    let mut held = Held {
        format: text(&format_of(kind)),
        name: name.map(text),
        metadata: metadata_of(metadata)?,
        children: Vec::new(),
        dictionary: ptr::null_mut(),
    };
    for child in children_of(kind) {
        held.children.push(boxed(child.try_into()?));
    }
    if let DataType::Dictionary(_, values) = kind {
        held.dictionary = boxed((&**values).try_into()?);
    }
    Ok(held)
}

fn children_of(kind: &DataType) -> Vec<&Field> {
    match kind {
        DataType::List(item)
        | DataType::LargeList(item)
        | DataType::ListView(item)
        | DataType::LargeListView(item)
        | DataType::FixedSizeList(item, _)
        | DataType::Map(item, _) => vec![&**item],
        DataType::Struct(fields) => fields.iter().map(|field| &**field).collect(),
        DataType::Union(members, _) => members.iter().map(|(_, field)| &**field).collect(),
        DataType::RunEndEncoded(ends, values) => vec![&**ends, &**values],
        _ => Vec::new(),
    }
}

/// A count, and of each entry the key and the text, both behind their length; none of no entries.
fn metadata_of(metadata: &HashMap<String, String>) -> Result<Option<Vec<u8>>, ArrowError> {
    let number = |count: usize| match i32::try_from(count) {
        Ok(number) => Ok(number.to_ne_bytes()),
        Err(_) => Err(ArrowError::CDataInterface(format!("metadata of {count}"))),
    };
    if metadata.is_empty() {
        return Ok(None);
    }
    let mut bytes = number(metadata.len())?.to_vec();
    for text in metadata.iter().flat_map(|(key, text)| [key, text]) {
        bytes.extend(number(text.len())?);
        bytes.extend(text.bytes());
    }
    Ok(Some(bytes))
}

fn format_of(kind: &DataType) -> String {
    match kind {
        DataType::Timestamp(unit, zone) => {
            format!(
                "ts{}:{}",
                unit_of(unit),
                zone.as_deref().unwrap_or_default()
            )
        }
        DataType::Time32(unit) | DataType::Time64(unit) => format!("tt{}", unit_of(unit)),
        DataType::Duration(unit) => format!("tD{}", unit_of(unit)),
        DataType::FixedSizeBinary(size) => format!("w:{size}"),
        DataType::FixedSizeList(_, size) => format!("+w:{size}"),
        DataType::Decimal32(precision, scale) => format!("d:{precision},{scale},32"),
        DataType::Decimal64(precision, scale) => format!("d:{precision},{scale},64"),
        DataType::Decimal128(precision, scale) => format!("d:{precision},{scale}"),
        DataType::Decimal256(precision, scale) => format!("d:{precision},{scale},256"),
        DataType::Union(members, UnionMode::Dense) => format!("+ud:{}", ids_of(members)),
        DataType::Union(members, UnionMode::Sparse) => format!("+us:{}", ids_of(members)),
        DataType::Dictionary(indices, _) => format_of(indices),
        plain => plain_format(plain).to_owned(),
    }
}

fn ids_of(members: &UnionFields) -> String {
    let ids: Vec<_> = members.iter().map(|(id, _)| id.to_string()).collect();
    ids.join(",")
}

fn unit_of(unit: &TimeUnit) -> char {
    match unit {
        TimeUnit::Second => 's',
        TimeUnit::Millisecond => 'm',
        TimeUnit::Microsecond => 'u',
        TimeUnit::Nanosecond => 'n',
    }
}

fn plain_format(kind: &DataType) -> &'static str {
    match kind {
        DataType::Null => "n",
        DataType::Boolean => "b",
        DataType::Int8 => "c",
        DataType::UInt8 => "C",
        DataType::Int16 => "s",
        DataType::UInt16 => "S",
        DataType::Int32 => "i",
        DataType::UInt32 => "I",
        DataType::Int64 => "l",
        DataType::UInt64 => "L",
        DataType::Float16 => "e",
        DataType::Float32 => "f",
        DataType::Float64 => "g",
        DataType::Binary => "z",
        DataType::LargeBinary => "Z",
        DataType::BinaryView => "vz",
        DataType::Utf8 => "u",
        DataType::LargeUtf8 => "U",
        DataType::Utf8View => "vu",
        DataType::Date32 => "tdD",
        DataType::Date64 => "tdm",
        DataType::Interval(IntervalUnit::YearMonth) => "tiM",
        DataType::Interval(IntervalUnit::DayTime) => "tiD",
        DataType::Interval(IntervalUnit::MonthDayNano) => "tin",
        DataType::List(_) => "+l",
        DataType::LargeList(_) => "+L",
        DataType::ListView(_) => "+vl",
        DataType::LargeListView(_) => "+vL",
        DataType::Struct(_) => "+s",
        DataType::Map(..) => "+m",
        DataType::RunEndEncoded(..) => "+r",
        _ => unreachable!("`format_of` has the others"),
    }
}
