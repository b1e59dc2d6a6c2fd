//! Makes one call of geoarrow-schema again and again: which one, and how often, the two arguments say. Prints how many
//! calls answered as they should.
use arrow_schema::extension::{EXTENSION_TYPE_METADATA_KEY, EXTENSION_TYPE_NAME_KEY};
use arrow_schema::{DataType, Field, Fields, UnionFields};
use geoarrow_schema::{
    Crs, Dimension, Edges, GeoArrowType, GeometryType, Metadata, PointType, WkbType,
};
use std::collections::HashMap;
use std::hint::black_box;
use std::sync::Arc;

const METADATA: &str = r#"{"crs":"EPSG:4326","crs_type":"authority_code","edges":"spherical"}"#;

const SPACED: &str =
    r#"{"crs": "EPSG:4326", "crs_type": "authority_code", "edges": "spherical"}"#;

const PROJJSON: &str = r#"{"crs":{"$schema":"https://proj.org/schemas/v0.7/projjson.schema.json","coordinate_system":{"axis":[{"abbreviation":"Lat","direction":"north","name":"Geodetic latitude","unit":"degree"},{"abbreviation":"Lon","direction":"east","name":"Geodetic longitude","unit":"degree"}],"subtype":"ellipsoidal"},"datum":{"ellipsoid":{"name":"WGS 84","semi_major_axis":6378137},"name":"WGS 84"},"id":{"authority":"EPSG","code":4326},"name":"WGS 84","type":"GeographicCRS"},"crs_type":"projjson"}"#;

/// A field of that data type, with that extension name and metadata text where they are given.
fn field(name: Option<&str>, text: Option<&str>, data_type: DataType) -> Field {
    let mut metadata = HashMap::new();
    if let Some(name) = name {
        metadata.insert(EXTENSION_TYPE_NAME_KEY.to_string(), name.to_string());
    }
    if let Some(text) = text {
        metadata.insert(EXTENSION_TYPE_METADATA_KEY.to_string(), text.to_string());
    }
    Field::new("g", data_type, true).with_metadata(metadata)
}

fn pair() -> DataType {
    let x = Field::new("x", DataType::Float64, false);
    let y = Field::new("y", DataType::Float64, false);
    DataType::Struct(vec![x, y].into())
}

fn multipolygon() -> DataType {
    let values = Field::new("xyz", DataType::Float64, false);
    let coordinates = DataType::FixedSizeList(Arc::new(values), 3);
    let vertices = Field::new("vertices", coordinates, false);
    let rings = Field::new_list("rings", vertices, false);
    let polygons = Field::new_list("polygons", rings, false);
    DataType::List(Arc::new(polygons))
}

fn point() -> GeoArrowType {
    PointType::new(Dimension::XY, Default::default()).into()
}

fn geometry() -> GeoArrowType {
    GeometryType::new(Default::default()).into()
}

fn wkb() -> GeoArrowType {
    let crs = Crs::from_authority_code("EPSG:4326".to_string());
    GeoArrowType::Wkb(WkbType::new(Arc::new(Metadata::new(
        crs,
        Some(Edges::Spherical),
    ))))
}

/// The type of a well-known binary column with that metadata text.
fn wkb_of(text: &str) -> GeoArrowType {
    let field = field(Some("geoarrow.wkb"), Some(text), DataType::Binary);
    GeoArrowType::from_extension_field(&field)
        .unwrap()
        .unwrap()
}

/// A schema of 50 columns, of which two are geometry.
fn schema() -> Vec<Field> {
    let mut fields = vec![
        field(Some("geoarrow.point"), None, pair()),
        field(Some("geoarrow.wkb"), Some(METADATA), DataType::Binary),
    ];
    for _ in 0..16 {
        fields.push(Field::new("i", DataType::Int64, true));
        fields.push(Field::new("n", DataType::Float64, true));
        fields.push(Field::new("t", DataType::Utf8, true));
    }
    fields
}

/// An equal field that shares no memory with this one.
fn copy_of_field(field: &Field) -> Field {
    Field::new(
        field.name().as_str(),
        copy_of(field.data_type()),
        field.is_nullable(),
    )
    .with_metadata(field.metadata().clone())
}

/// An equal data type that shares no memory with this one, of the data types that a geometry is of.
fn copy_of(data_type: &DataType) -> DataType {
    match data_type {
        DataType::Struct(fields) => {
            DataType::Struct(fields.iter().map(|f| copy_of_field(f)).collect::<Fields>())
        }
        DataType::List(inner) => DataType::List(Arc::new(copy_of_field(inner))),
        DataType::Union(members, mode) => {
            let ids: Vec<i8> = members.iter().map(|(id, _)| id).collect();
            let fields: Vec<Field> = members.iter().map(|(_, f)| copy_of_field(f)).collect();
            DataType::Union(UnionFields::try_new(ids, fields).unwrap(), *mode)
        }
        other => other.clone(),
    }
}

/// How often the call says that it answered as it should.
fn times(count: u64, mut call: impl FnMut() -> bool) -> u64 {
    let mut answered = 0;
    for _ in 0..count {
        if call() {
            answered += 1;
        }
    }
    answered
}

/// How often a field is read as a type.
fn reads(field: &Field, count: u64) -> u64 {
    times(count, || {
        let found = black_box(GeoArrowType::from_extension_field(black_box(field)));
        matches!(found, Ok(Some(_)))
    })
}

/// How often a field is read as none.
fn passes(field: &Field, count: u64) -> u64 {
    times(count, || {
        let found = black_box(GeoArrowType::from_extension_field(black_box(field)));
        matches!(found, Ok(None))
    })
}

/// How often a field is refused.
fn refuses(field: &Field, count: u64) -> u64 {
    times(count, || {
        let found = black_box(GeoArrowType::from_extension_field(black_box(field)));
        found.is_err()
    })
}

/// How often the type of a field is read or inferred.
fn infers(field: &Field, count: u64) -> u64 {
    times(count, || {
        let found = black_box(GeoArrowType::from_arrow_field(black_box(field)));
        found.is_ok()
    })
}

/// How often a type is written as a field.
fn writes(one: &GeoArrowType, count: u64) -> u64 {
    times(count, || {
        black_box(black_box(one).to_field(black_box("g"), true));
        true
    })
}

/// How often the data type of a type is made.
fn lays_out(one: &GeoArrowType, count: u64) -> u64 {
    times(count, || {
        black_box(black_box(one).to_data_type());
        true
    })
}

/// How often two data types are equal.
fn equals(a: &DataType, b: &DataType, count: u64) -> u64 {
    times(count, || black_box(black_box(a) == black_box(b)))
}

/// How often a data type is cloned.
fn clones(data_type: &DataType, count: u64) -> u64 {
    times(count, || {
        black_box(black_box(data_type).clone());
        true
    })
}

/// How often a data type is cloned so that no memory is shared.
fn copies(data_type: &DataType, count: u64) -> u64 {
    times(count, || {
        black_box(copy_of(black_box(data_type)));
        true
    })
}

/// How often each column of a schema has an answer, kept until all have one.
fn checks(fields: &[Field], count: u64) -> u64 {
    times(count, || {
        let columns: Vec<_> = black_box(fields)
            .iter()
            .map(|field| GeoArrowType::from_arrow_field(field))
            .collect();
        black_box(&columns).len() == fields.len()
    })
}

/// The Rust crate has no call with a scratch: `_kept` is the call without one.
fn count_calls(call: &str, count: u64) -> u64 {
    let named = |name: &str, data_type| field(Some(name), None, data_type);
    match call {
        "point" => reads(&named("geoarrow.point", pair()), count),
        "wkb" | "wkb_kept" => {
            let field = field(Some("geoarrow.wkb"), Some(METADATA), DataType::Binary);
            reads(&field, count)
        }
        "spaced" | "spaced_kept" => {
            let field = field(Some("geoarrow.wkb"), Some(SPACED), DataType::Binary);
            reads(&field, count)
        }
        "projjson" | "projjson_kept" => {
            let field = field(Some("geoarrow.wkb"), Some(PROJJSON), DataType::Binary);
            reads(&field, count)
        }
        "multipolygon" => reads(&named("geoarrow.multipolygon", multipolygon()), count),
        "geometry" => reads(&geometry().to_field("g", true), count),
        "no_name" => passes(&field(None, None, pair()), count),
        "other_name" => passes(&named("arrow.uuid", DataType::Binary), count),
        "point_field" => writes(&point(), count),
        "wkb_field" => writes(&wkb(), count),
        "projjson_field" => writes(&wkb_of(PROJJSON), count),
        "geometry_type" => lays_out(&geometry(), count),
        "infer" => infers(&field(None, None, pair()), count),
        "refusal" => refuses(&named("geoarrow.geometry", DataType::Int32), count),
        "equal" => equals(
            &geometry().to_data_type(),
            &geometry().to_data_type(),
            count,
        ),
        "equal_unshared" => {
            let one = geometry().to_data_type();
            equals(&copy_of(&one), &copy_of(&one), count)
        }
        "clone" => clones(&geometry().to_data_type(), count),
        "clone_unshared" => copies(&geometry().to_data_type(), count),
        "columns" => checks(&schema(), count),
        _ => 0,
    }
}

fn main() {
    let words: Vec<String> = std::env::args().collect();
    let count = words[2].parse().expect("a count");
    println!("{}", count_calls(&words[1], count));
}
