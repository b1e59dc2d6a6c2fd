//! What arrow-schema says of extension types.
use crate::{ArrowError, DataType};

pub const EXTENSION_TYPE_NAME_KEY: &str = "ARROW:extension:name";
pub const EXTENSION_TYPE_METADATA_KEY: &str = "ARROW:extension:metadata";

pub trait ExtensionType: Sized {
    const NAME: &'static str;

    type Metadata;

    fn metadata(&self) -> &Self::Metadata;

    fn serialize_metadata(&self) -> Option<String>;

    fn deserialize_metadata(metadata: Option<&str>) -> Result<Self::Metadata, ArrowError>;

    fn supports_data_type(&self, data_type: &DataType) -> Result<(), ArrowError>;

    fn try_new(data_type: &DataType, metadata: Self::Metadata) -> Result<Self, ArrowError>;
}
