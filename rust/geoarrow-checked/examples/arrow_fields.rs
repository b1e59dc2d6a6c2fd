//! Checks the fields of a schema of arrow-rs: cargo run --example arrow_fields --features arrow-schema
use arrow_schema::{DataType, Field, TimeUnit};
use geoarrow_checked::arrow::check_fields;
use geoarrow_checked::{Error, Options};

fn main() -> Result<(), Error> {
    let extension = |name: &str| [("ARROW:extension:name".to_owned(), name.to_owned())].into();
    let coordinates = vec![
        Field::new("x", DataType::Float64, false),
        Field::new("y", DataType::Float64, false),
    ];
    let fields = [
        Field::new(
            "seen",
            DataType::Timestamp(TimeUnit::Millisecond, Some("UTC".into())),
            true,
        ),
        Field::new("place", DataType::Struct(coordinates.into()), true)
            .with_metadata(extension("geoarrow.point")),
        Field::new("shape", DataType::Utf8, true).with_metadata(extension("geoarrow.wkb")),
    ];
    print!("{}", check_fields(&fields, Options::default())?);
    Ok(())
}
