//! A field as a line of JSON, with its keys in the order of their bytes.
use arrow_schema::{DataType, Field, UnionFields, UnionMode};
use serde::ser::{Serialize, SerializeMap, Serializer};
use std::collections::{BTreeMap, HashMap};

pub struct Line<'a>(pub &'a Field);

struct Texts<'a>(&'a HashMap<String, String>);
struct Type<'a>(&'a DataType);
struct Fields<'a>(&'a arrow_schema::Fields);
struct Members<'a>(&'a UnionFields);

impl Serialize for Line<'_> {
    fn serialize<S: Serializer>(&self, serializer: S) -> Result<S::Ok, S::Error> {
        let Line(field) = self;
        let mut object = serializer.serialize_map(None)?;
        if !field.metadata().is_empty() {
            object.serialize_entry("metadata", &Texts(field.metadata()))?;
        }
        object.serialize_entry("name", field.name())?;
        object.serialize_entry("nullable", &field.is_nullable())?;
        object.serialize_entry("type", &Type(field.data_type()))?;
        object.end()
    }
}

impl Serialize for Texts<'_> {
    fn serialize<S: Serializer>(&self, serializer: S) -> Result<S::Ok, S::Error> {
        let sorted: BTreeMap<_, _> = self.0.iter().collect();
        serializer.collect_map(sorted)
    }
}

impl Serialize for Fields<'_> {
    fn serialize<S: Serializer>(&self, serializer: S) -> Result<S::Ok, S::Error> {
        serializer.collect_seq(self.0.iter().map(|field| Line(field)))
    }
}

impl Serialize for Members<'_> {
    fn serialize<S: Serializer>(&self, serializer: S) -> Result<S::Ok, S::Error> {
        serializer.collect_seq(self.0.iter().map(|(id, field)| (id, Line(field))))
    }
}

impl Serialize for Type<'_> {
    fn serialize<S: Serializer>(&self, serializer: S) -> Result<S::Ok, S::Error> {
        let mut object = match self.0 {
            DataType::List(_)
            | DataType::LargeList(_)
            | DataType::FixedSizeList(_, _)
            | DataType::Struct(_)
            | DataType::Union(_, _) => serializer.serialize_map(None)?,
            plain => return serializer.serialize_str(word_of(plain)),
        };
        match self.0 {
            DataType::List(inner) => object.serialize_entry("list", &Line(inner))?,
            DataType::LargeList(inner) => object.serialize_entry("large_list", &Line(inner))?,
            DataType::FixedSizeList(inner, size) => {
                object.serialize_entry("fixed_size_list", &Line(inner))?;
                object.serialize_entry("size", size)?;
            }
            DataType::Struct(fields) => object.serialize_entry("struct", &Fields(fields))?,
            DataType::Union(members, mode) => {
                let word = if *mode == UnionMode::Dense {
                    "dense"
                } else {
                    "sparse"
                };
                object.serialize_entry("mode", word)?;
                object.serialize_entry("union", &Members(members))?;
            }
            _ => {}
        }
        object.end()
    }
}

/// The word of a plain type. No other type comes from a line.
fn word_of(plain: &DataType) -> &'static str {
    match plain {
        DataType::Null => "null",
        DataType::Boolean => "boolean",
        DataType::Int8 => "int8",
        DataType::Int16 => "int16",
        DataType::Int32 => "int32",
        DataType::Int64 => "int64",
        DataType::UInt8 => "uint8",
        DataType::UInt16 => "uint16",
        DataType::UInt32 => "uint32",
        DataType::UInt64 => "uint64",
        DataType::Float16 => "float16",
        DataType::Float32 => "float32",
        DataType::Float64 => "float64",
        DataType::Date32 => "date32",
        DataType::Date64 => "date64",
        DataType::Binary => "binary",
        DataType::LargeBinary => "large_binary",
        DataType::BinaryView => "binary_view",
        DataType::Utf8 => "utf8",
        DataType::LargeUtf8 => "large_utf8",
        DataType::Utf8View => "utf8_view",
        other => unreachable!("no line holds {other}"),
    }
}
