//! The answer to one line.
use crate::read::field_of;
use crate::write::Line;
use arrow_schema::{DataType, Field};
use geoarrow_schema::error::GeoArrowError;
use geoarrow_schema::{CoordType, Dimension, GeoArrowType};
use serde_json::Value;
use std::io::{self, Write};

#[derive(Clone, Copy)]
pub enum Command {
    Read,
    Infer,
    Canon,
    Columns,
}

impl Command {
    pub fn named(word: &str) -> Option<Command> {
        match word {
            "read" => Some(Command::Read),
            "infer" => Some(Command::Infer),
            "canon" => Some(Command::Canon),
            "columns" => Some(Command::Columns),
            _ => None,
        }
    }
}

/// The JSON value of a line. That the line is UTF-8 is seen once, and not text by text.
fn value_of(line: &[u8]) -> Option<Value> {
    serde_json::from_str(std::str::from_utf8(line).ok()?).ok()
}

/// Writes the answer to a line, and a line feed.
pub fn write_answer(command: Command, line: &[u8], out: &mut impl Write) -> io::Result<()> {
    match value_of(line).and_then(field_of) {
        None => out.write_all(b"error field")?,
        Some(field) => match command {
            Command::Read => write_read(&field, out)?,
            Command::Infer => write_infer(&field, out)?,
            Command::Canon => write_canon(field, out)?,
            Command::Columns => write_columns(&field, out)?,
        },
    }
    out.write_all(b"\n")
}

fn write_read(field: &Field, out: &mut impl Write) -> io::Result<()> {
    match GeoArrowType::from_extension_field(field) {
        Ok(Some(found)) => write_type(&found, out),
        Ok(None) => out.write_all(b"none"),
        Err(error) => write_error("error", &error, out),
    }
}

fn write_infer(field: &Field, out: &mut impl Write) -> io::Result<()> {
    match GeoArrowType::from_arrow_field(field) {
        Ok(found) => write_type(&as_named(field, found), out),
        Err(error) => write_error("error", &error, out),
    }
}

fn write_canon(field: Field, out: &mut impl Write) -> io::Result<()> {
    match GeoArrowType::from_extension_field(&field) {
        Ok(Some(found)) => {
            serde_json::to_writer(out, &Line(&canonical_field(field, found)))?;
            Ok(())
        }
        Ok(None) => out.write_all(b"none"),
        Err(error) => write_error("error", &error, out),
    }
}

fn write_columns(field: &Field, out: &mut impl Write) -> io::Result<()> {
    match GeoArrowType::from_extension_field(field) {
        Ok(Some(found)) => {
            out.write_all(b"geometry ")?;
            write_type(&found, out)
        }
        Ok(None) => match GeoArrowType::from_arrow_field(field) {
            Ok(found) => {
                out.write_all(b"inferred ")?;
                write_type(&as_named(field, found), out)
            }
            Err(GeoArrowError::Arrow(_)) => out.write_all(b"faulty arrow"),
            Err(_) => out.write_all(b"other"),
        },
        Err(error) => write_error("faulty", &error, out),
    }
}

/// The type that a field without a GeoArrow name is taken for: XYM where its names say so, which the Rust crate does not ask.
fn as_named(field: &Field, found: GeoArrowType) -> GeoArrowType {
    let is_xym = match (&found, field.data_type()) {
        (GeoArrowType::Point(point), _) if point.dimension() != Dimension::XYZ => false,
        (GeoArrowType::Point(_), DataType::FixedSizeList(inner, _)) => inner.name() == "xym",
        (GeoArrowType::Point(_), DataType::Struct(fields)) => ["x", "y", "m"]
            .iter()
            .all(|name| fields.iter().any(|field| field.name() == name)),
        _ => false,
    };
    if is_xym {
        found.with_dimension(Dimension::XYM)
    } else {
        found
    }
}

/// The field with the type written on it: its column name, nullability and other metadata stay.
fn canonical_field(field: Field, found: GeoArrowType) -> Field {
    use GeoArrowType::*;
    let field = field.with_data_type(found.to_data_type());
    match found {
        Point(one) => field.with_extension_type(one),
        LineString(one) => field.with_extension_type(one),
        Polygon(one) => field.with_extension_type(one),
        MultiPoint(one) => field.with_extension_type(one),
        MultiLineString(one) => field.with_extension_type(one),
        MultiPolygon(one) => field.with_extension_type(one),
        GeometryCollection(one) => field.with_extension_type(one),
        Rect(one) => field.with_extension_type(one),
        Geometry(one) => field.with_extension_type(one),
        Wkb(one) | LargeWkb(one) | WkbView(one) => field.with_extension_type(one),
        Wkt(one) | LargeWkt(one) | WktView(one) => field.with_extension_type(one),
    }
}

fn write_error(word: &str, error: &GeoArrowError, out: &mut impl Write) -> io::Result<()> {
    out.write_all(word.as_bytes())?;
    out.write_all(match error {
        GeoArrowError::Arrow(_) => b" arrow",
        _ => b" invalid",
    })
}

/// Writes the four parts of a type.
fn write_type(found: &GeoArrowType, out: &mut impl Write) -> io::Result<()> {
    out.write_all(kind_word(found).as_bytes())?;
    out.write_all(match found.coord_type() {
        Some(CoordType::Interleaved) => b" interleaved ",
        Some(CoordType::Separated) => b" separated ",
        None => b" - ",
    })?;
    out.write_all(match found.dimension() {
        Some(Dimension::XY) => b"XY ",
        Some(Dimension::XYZ) => b"XYZ ",
        Some(Dimension::XYM) => b"XYM ",
        Some(Dimension::XYZM) => b"XYZM ",
        None => b"- ",
    })?;
    let metadata = found.metadata();
    if metadata.crs().crs_value().is_none() && metadata.edges().is_none() {
        return out.write_all(b"-");
    }
    serde_json::to_writer(out, metadata.as_ref())?;
    Ok(())
}

fn kind_word(found: &GeoArrowType) -> &'static str {
    use GeoArrowType::*;
    match found {
        Point(_) => "point",
        LineString(_) => "linestring",
        Polygon(_) => "polygon",
        MultiPoint(_) => "multipoint",
        MultiLineString(_) => "multilinestring",
        MultiPolygon(_) => "multipolygon",
        GeometryCollection(_) => "geometrycollection",
        Rect(_) => "box",
        Geometry(_) => "geometry",
        Wkb(_) => "wkb",
        LargeWkb(_) => "large_wkb",
        WkbView(_) => "wkb_view",
        Wkt(_) => "wkt",
        LargeWkt(_) => "large_wkt",
        WktView(_) => "wkt_view",
    }
}
