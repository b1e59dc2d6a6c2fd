//! The part of arrow-schema 58 that geoarrow-schema 0.9.0, the programs beside this folder and the tests of rust/ need, with the
//! same data structures, for a machine that reaches no package registry. Its error texts are not those of the real crate.
pub mod extension;
#[cfg(feature = "ffi")]
pub mod ffi;

use extension::{ExtensionType, EXTENSION_TYPE_METADATA_KEY, EXTENSION_TYPE_NAME_KEY};
use std::collections::HashMap;
use std::error::Error;
use std::fmt::{self, Display, Formatter};
use std::ops::Deref;
use std::sync::Arc;

#[derive(Debug)]
pub enum ArrowError {
    ExternalError(Box<dyn Error + Send + Sync>),
    SchemaError(String),
    InvalidArgumentError(String),
    CDataInterface(String),
}

impl Display for ArrowError {
    fn fmt(&self, f: &mut Formatter<'_>) -> fmt::Result {
        match self {
            ArrowError::ExternalError(source) => write!(f, "External error: {source}"),
            ArrowError::SchemaError(text) => write!(f, "Schema error: {text}"),
            ArrowError::InvalidArgumentError(text) => write!(f, "Invalid argument error: {text}"),
            ArrowError::CDataInterface(text) => write!(f, "C Data interface error: {text}"),
        }
    }
}

impl Error for ArrowError {}

#[derive(Debug, Clone, Copy, PartialEq, Eq, Hash, PartialOrd, Ord)]
pub enum UnionMode {
    Sparse,
    Dense,
}

#[derive(Debug, Clone, Copy, PartialEq, Eq, Hash, PartialOrd, Ord)]
pub enum TimeUnit {
    Second,
    Millisecond,
    Microsecond,
    Nanosecond,
}

#[derive(Debug, Clone, Copy, PartialEq, Eq, Hash, PartialOrd, Ord)]
pub enum IntervalUnit {
    YearMonth,
    DayTime,
    MonthDayNano,
}

#[derive(Debug, Clone, PartialEq, Eq)]
pub enum DataType {
    Null,
    Boolean,
    Int8,
    Int16,
    Int32,
    Int64,
    UInt8,
    UInt16,
    UInt32,
    UInt64,
    Float16,
    Float32,
    Float64,
    Timestamp(TimeUnit, Option<Arc<str>>),
    Date32,
    Date64,
    Time32(TimeUnit),
    Time64(TimeUnit),
    Duration(TimeUnit),
    Interval(IntervalUnit),
    Binary,
    FixedSizeBinary(i32),
    LargeBinary,
    BinaryView,
    Utf8,
    LargeUtf8,
    Utf8View,
    List(FieldRef),
    ListView(FieldRef),
    FixedSizeList(FieldRef, i32),
    LargeList(FieldRef),
    LargeListView(FieldRef),
    Struct(Fields),
    Union(UnionFields, UnionMode),
    Dictionary(Box<DataType>, Box<DataType>),
    Decimal32(u8, i8),
    Decimal64(u8, i8),
    Decimal128(u8, i8),
    Decimal256(u8, i8),
    Map(FieldRef, bool),
    RunEndEncoded(FieldRef, FieldRef),
}

impl Display for DataType {
    fn fmt(&self, f: &mut Formatter<'_>) -> fmt::Result {
        write!(f, "{self:?}")
    }
}

pub type FieldRef = Arc<Field>;

#[derive(Debug, Clone)]
pub struct Field {
    name: String,
    data_type: DataType,
    nullable: bool,
    // Of structures of `ffi` alone; the real field has it too, and so takes as much room.
    #[allow(dead_code)]
    dict_is_ordered: bool,
    metadata: HashMap<String, String>,
}

impl PartialEq for Field {
    fn eq(&self, other: &Self) -> bool {
        self.name == other.name
            && self.data_type == other.data_type
            && self.nullable == other.nullable
            && self.metadata == other.metadata
    }
}

impl Eq for Field {}

impl Field {
    pub fn new(name: impl Into<String>, data_type: DataType, nullable: bool) -> Self {
        Field {
            name: name.into(),
            data_type,
            nullable,
            dict_is_ordered: false,
            metadata: HashMap::default(),
        }
    }

    pub fn new_list(name: impl Into<String>, value: impl Into<FieldRef>, nullable: bool) -> Self {
        Self::new(name, DataType::List(value.into()), nullable)
    }

    pub fn with_metadata(mut self, metadata: HashMap<String, String>) -> Self {
        self.metadata = metadata;
        self
    }

    pub fn with_dict_is_ordered(mut self, is_ordered: bool) -> Self {
        self.dict_is_ordered = is_ordered;
        self
    }

    pub fn with_data_type(mut self, data_type: DataType) -> Self {
        self.data_type = data_type;
        self
    }

    pub fn metadata(&self) -> &HashMap<String, String> {
        &self.metadata
    }

    pub fn name(&self) -> &String {
        &self.name
    }

    pub fn data_type(&self) -> &DataType {
        &self.data_type
    }

    pub fn is_nullable(&self) -> bool {
        self.nullable
    }

    pub fn extension_type_name(&self) -> Option<&str> {
        self.metadata().get(EXTENSION_TYPE_NAME_KEY).map(String::as_ref)
    }

    pub fn extension_type_metadata(&self) -> Option<&str> {
        self.metadata().get(EXTENSION_TYPE_METADATA_KEY).map(String::as_ref)
    }

    pub fn try_extension_type<E: ExtensionType>(&self) -> Result<E, ArrowError> {
        match self.extension_type_name() {
            Some(name) if name == E::NAME => {
                E::deserialize_metadata(self.extension_type_metadata())
                    .and_then(|metadata| E::try_new(self.data_type(), metadata))
            }
            found => Err(ArrowError::InvalidArgumentError(format!(
                "expected extension type {}, found {found:?}",
                E::NAME
            ))),
        }
    }

    pub fn try_with_extension_type<E: ExtensionType>(&mut self, one: E) -> Result<(), ArrowError> {
        one.supports_data_type(&self.data_type)?;
        self.metadata.insert(EXTENSION_TYPE_NAME_KEY.to_owned(), E::NAME.to_owned());
        match one.serialize_metadata() {
            Some(text) => self.metadata.insert(EXTENSION_TYPE_METADATA_KEY.to_owned(), text),
            None => self.metadata.remove(EXTENSION_TYPE_METADATA_KEY),
        };
        Ok(())
    }

    pub fn with_extension_type<E: ExtensionType>(mut self, one: E) -> Self {
        self.try_with_extension_type(one).unwrap_or_else(|error| panic!("{error}"));
        self
    }
}

#[derive(Debug, Clone, PartialEq, Eq)]
pub struct Fields(Arc<[FieldRef]>);

impl Deref for Fields {
    type Target = [FieldRef];

    fn deref(&self) -> &Self::Target {
        &self.0
    }
}

impl From<Vec<Field>> for Fields {
    fn from(fields: Vec<Field>) -> Self {
        fields.into_iter().collect()
    }
}

impl FromIterator<Field> for Fields {
    fn from_iter<I: IntoIterator<Item = Field>>(fields: I) -> Self {
        Fields(fields.into_iter().map(Arc::new).collect())
    }
}

#[derive(Debug, Clone, PartialEq, Eq)]
pub struct Schema {
    pub fields: Fields,
    pub metadata: HashMap<String, String>,
}

impl Schema {
    pub fn new(fields: impl Into<Fields>) -> Self {
        Self::new_with_metadata(fields, HashMap::new())
    }

    pub fn new_with_metadata(
        fields: impl Into<Fields>,
        metadata: HashMap<String, String>,
    ) -> Self {
        Schema { fields: fields.into(), metadata }
    }
}

#[derive(Debug, Clone, PartialEq, Eq)]
pub struct UnionFields(Arc<[(i8, FieldRef)]>);

impl UnionFields {
    pub fn try_new<F, T>(ids: T, fields: F) -> Result<Self, ArrowError>
    where
        F: IntoIterator,
        F::Item: Into<FieldRef>,
        T: IntoIterator<Item = i8>,
    {
        let mut seen = 0_u128;
        let mut ids = ids.into_iter();
        let mut fields = fields.into_iter();
        let mut members = Vec::new();
        loop {
            let (id, field) = match (ids.next(), fields.next()) {
                (Some(id), Some(field)) => (id, field.into()),
                (None, None) => return Ok(UnionFields(members.into())),
                _ => return Err(refused("as many type ids as fields")),
            };
            if id < 0 {
                return Err(refused("type ids of 0 or more"));
            }
            let bit = 1_u128 << id;
            if seen & bit != 0 {
                return Err(refused("type ids that differ"));
            }
            seen |= bit;
            members.push((id, field));
        }
    }

    pub fn len(&self) -> usize {
        self.0.len()
    }

    pub fn is_empty(&self) -> bool {
        self.0.is_empty()
    }

    pub fn iter(&self) -> impl Iterator<Item = (i8, &FieldRef)> + '_ {
        self.0.iter().map(|(id, field)| (*id, field))
    }
}

fn refused(wanted: &str) -> ArrowError {
    ArrowError::InvalidArgumentError(format!("a union has {wanted}"))
}
