//! The field that a JSON value stands for.
use arrow_schema::{DataType, Field, Fields, UnionFields, UnionMode};
use serde_json::{Map, Value};
use std::collections::HashMap;
use std::sync::Arc;

pub fn field_of(value: Value) -> Option<Field> {
    let Value::Object(members) = value else {
        return None;
    };
    let (mut name, mut nullable, mut data_type, mut metadata) = (None, None, None, None);
    for (key, value) in members {
        match (key.as_str(), value) {
            ("name", Value::String(text)) => name = Some(text),
            ("nullable", Value::Bool(is_nullable)) => nullable = Some(is_nullable),
            ("type", value) => data_type = Some(data_type_of(value)?),
            ("metadata", Value::Object(texts)) => metadata = Some(texts_of(texts)?),
            ("name" | "nullable" | "metadata", _) => return None,
            _ => {}
        }
    }
    let field = Field::new(name?, data_type?, nullable?);
    Some(match metadata {
        Some(metadata) => field.with_metadata(metadata),
        None => field,
    })
}

fn texts_of(members: Map<String, Value>) -> Option<HashMap<String, String>> {
    let mut texts = HashMap::with_capacity(members.len());
    for (key, value) in members {
        let Value::String(text) = value else {
            return None;
        };
        texts.insert(key, text);
    }
    Some(texts)
}

fn data_type_of(value: Value) -> Option<DataType> {
    match value {
        Value::String(word) => plain_type(&word),
        Value::Object(members) => nested_type(members),
        _ => None,
    }
}

/// A data type with fields inside: an object of one key, or of two, which come in the order of their bytes.
fn nested_type(members: Map<String, Value>) -> Option<DataType> {
    let mut members = members.into_iter();
    let (key, value) = members.next()?;
    let second = members.next();
    if members.next().is_some() {
        return None;
    }
    match (key.as_str(), value, second) {
        ("list", inner, None) => Some(DataType::List(Arc::new(field_of(inner)?))),
        ("large_list", inner, None) => Some(DataType::LargeList(Arc::new(field_of(inner)?))),
        ("struct", Value::Array(fields), None) => {
            let fields: Option<Fields> = fields.into_iter().map(field_of).collect();
            fields.map(DataType::Struct)
        }
        ("fixed_size_list", inner, Some((key, size))) if key == "size" => {
            let size = i32::try_from(size.as_i64()?).ok()?;
            Some(DataType::FixedSizeList(Arc::new(field_of(inner)?), size))
        }
        ("mode", Value::String(mode), Some((key, Value::Array(members)))) if key == "union" => {
            Some(DataType::Union(union_of(members)?, mode_of(&mode)?))
        }
        _ => None,
    }
}

fn mode_of(word: &str) -> Option<UnionMode> {
    match word {
        "dense" => Some(UnionMode::Dense),
        "sparse" => Some(UnionMode::Sparse),
        _ => None,
    }
}

fn union_of(members: Vec<Value>) -> Option<UnionFields> {
    let mut ids = Vec::with_capacity(members.len());
    let mut fields = Vec::with_capacity(members.len());
    for member in members {
        let Value::Array(parts) = member else {
            return None;
        };
        let [id, field] = <[Value; 2]>::try_from(parts).ok()?;
        ids.push(i8::try_from(id.as_i64()?).ok()?);
        fields.push(field_of(field)?);
    }
    UnionFields::try_new(ids, fields).ok()
}

fn plain_type(word: &str) -> Option<DataType> {
    Some(match word {
        "null" => DataType::Null,
        "boolean" => DataType::Boolean,
        "int8" => DataType::Int8,
        "int16" => DataType::Int16,
        "int32" => DataType::Int32,
        "int64" => DataType::Int64,
        "uint8" => DataType::UInt8,
        "uint16" => DataType::UInt16,
        "uint32" => DataType::UInt32,
        "uint64" => DataType::UInt64,
        "float16" => DataType::Float16,
        "float32" => DataType::Float32,
        "float64" => DataType::Float64,
        "date32" => DataType::Date32,
        "date64" => DataType::Date64,
        "binary" => DataType::Binary,
        "large_binary" => DataType::LargeBinary,
        "binary_view" => DataType::BinaryView,
        "utf8" => DataType::Utf8,
        "large_utf8" => DataType::LargeUtf8,
        "utf8_view" => DataType::Utf8View,
        _ => return None,
    })
}
