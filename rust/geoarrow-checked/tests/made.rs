//! Columns that are made: by the rows that all languages share, and of each kind what a check finds.
mod common;

use common::{read, refused};
use geoarrow_checked::{
    check, make_line, schema_lines, schema_of_lines, CoordType, CrsType, Dimension, Edges,
    GeometryType, Kind, NewField, Options, Serialized,
};

const TYPES: [GeometryType; 7] = [
    GeometryType::Point,
    GeometryType::LineString,
    GeometryType::Polygon,
    GeometryType::MultiPoint,
    GeometryType::MultiLineString,
    GeometryType::MultiPolygon,
    GeometryType::GeometryCollection,
];
const COORD_TYPES: [CoordType; 2] = [CoordType::Interleaved, CoordType::Separated];
const DIMENSIONS: [Dimension; 4] = [
    Dimension::XY,
    Dimension::XYZ,
    Dimension::XYM,
    Dimension::XYZM,
];
const SERIALIZED: [Serialized; 6] = [
    Serialized::Wkb,
    Serialized::LargeWkb,
    Serialized::WkbView,
    Serialized::Wkt,
    Serialized::LargeWkt,
    Serialized::WktView,
];

/// The 68 kinds, each with its words in a report.
fn kinds() -> Vec<(Kind, String)> {
    let mut found = Vec::new();
    for coord_type in COORD_TYPES {
        let word = coord_type.as_str();
        for dimension in DIMENSIONS {
            for kind in TYPES {
                let words = format!("{} {word} {}", kind.as_str(), dimension.as_str());
                found.push((Kind::Native(kind, coord_type, dimension), words));
            }
        }
        found.push((Kind::Geometry(coord_type), format!("geometry {word} -")));
    }
    for dimension in DIMENSIONS {
        found.push((
            Kind::Box(dimension),
            format!("box separated {}", dimension.as_str()),
        ));
    }
    for kind in SERIALIZED {
        found.push((Kind::Serialized(kind), format!("{} - -", kind.as_str())));
    }
    found
}

/// The lines that native/schemas.rows has below the row of these words.
fn row(words: &str) -> String {
    let text = String::from_utf8(read("native/schemas.rows")).unwrap();
    let row = format!("make {words}");
    let mut lines = text.lines().skip_while(|line| *line != row);
    assert!(lines.next().is_some(), "{row}");
    lines.next().unwrap().to_owned()
}

fn wkb() -> NewField<'static> {
    NewField {
        name: "g",
        ..NewField::new(Kind::Serialized(Serialized::Wkb))
    }
}

#[test]
fn the_rows_of_each_argument() {
    let point = Kind::Native(GeometryType::Point, CoordType::Interleaved, Dimension::XY);
    for (new, words) in [
        (wkb(), "{}"),
        (NewField { name: "", ..wkb() }, r#"{"name":""}"#),
        (
            NewField {
                kind: point,
                ..wkb()
            },
            r#"{"kind":"point interleaved XY"}"#,
        ),
        (
            NewField {
                nullable: false,
                ..wkb()
            },
            r#"{"nullable":0}"#,
        ),
        (
            NewField {
                crs: "EPSG:4326",
                ..wkb()
            },
            r#"{"crs":"EPSG:4326"}"#,
        ),
        (
            NewField {
                crs: "4326",
                crs_type: Some(CrsType::Srid),
                ..wkb()
            },
            r#"{"crs":"4326","crs_type":"srid"}"#,
        ),
        (NewField { crs: "{}", ..wkb() }, r#"{"crs":"{}"}"#),
        (
            NewField {
                edges: Some(Edges::Karney),
                ..wkb()
            },
            r#"{"edges":"karney"}"#,
        ),
    ] {
        assert_eq!(make_line(&new).unwrap(), row(words));
    }
}

#[test]
fn what_is_refused() {
    let of_type = NewField {
        crs_type: Some(CrsType::Projjson),
        ..wkb()
    };
    for (new, words) in [
        (NewField { crs: "{", ..wkb() }, r#"{"crs":"{"}"#),
        (of_type, r#"{"crs_type":"projjson"}"#),
    ] {
        assert_eq!(refused(make_line(&new)).as_json(), row(words));
    }
}

#[test]
fn a_check_finds_each_kind_and_a_schema_has_it() {
    let kinds = kinds();
    assert_eq!(kinds.len(), 68);
    let mut lines = String::new();
    for (kind, words) in kinds {
        let line = make_line(&NewField::new(kind)).unwrap();
        let report = check(line.as_bytes(), Options::default()).unwrap();
        assert!(
            report.contains(&format!(r#""state":"geometry","type":"{words}""#)),
            "{report}"
        );
        lines += &line;
        lines += "\n";
    }
    let mut schema = schema_of_lines(lines.as_bytes()).unwrap();
    // SAFETY: it is a schema that the library has made, which is released once.
    unsafe {
        assert_eq!(schema_lines(&schema).unwrap(), lines);
        schema.release.unwrap()(&mut schema);
    }
    assert!(schema.release.is_none());
}

#[test]
fn lines_of_which_no_schema_is_made() {
    assert_eq!(refused(schema_of_lines(b"{}\n")).code(), "BadLine");
    let name = br#"{"name":"a\u0000","nullable":true,"type":"utf8"}"#;
    let why = refused(schema_of_lines(name));
    assert_eq!((why.code(), why.index()), ("BadSchema", Some(0)));
}
