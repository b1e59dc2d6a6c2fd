//! The lines of arrow-rs' fields, and what is said of them and of schemas. (`types` has each data type.)
#![cfg(feature = "arrow-schema")]
mod common;

use arrow_schema::{DataType, Field, Schema, TimeUnit};
use common::refused;
use geoarrow_checked::arrow::{check_arrow_schema, check_fields, field_line};
use geoarrow_checked::{findings, Error, Options};

fn field(name: &str, kind: DataType, nullable: bool) -> Field {
    Field::new(name, kind, nullable)
}

/// A field that nests so many levels.
fn nested(levels: usize) -> Field {
    let kind = (0..levels).fold(DataType::Null, |inner, _| {
        DataType::List(field("i", inner, true).into())
    });
    field("d", kind, true)
}

#[test]
fn texts_are_escaped() {
    let named = field("a\"\\\n\u{1}é", DataType::Null, false).with_metadata(
        [
            ("k\"".to_owned(), "\t".to_owned()),
            ("a".to_owned(), String::new()),
        ]
        .into(),
    );
    assert_eq!(
        field_line(&named).unwrap(),
        r#"{"metadata":{"a":"","k\"":"\t"},"name":"a\"\\\n\u0001é","nullable":false,"type":"null"}"#
    );
}

#[test]
fn fields_of_a_schema() {
    let xy = vec![
        field("x", DataType::Float64, false),
        field("y", DataType::Float64, false),
    ];
    let point = field("p", DataType::Struct(xy.into()), true).with_metadata(
        [(
            "ARROW:extension:name".to_owned(),
            "geoarrow.point".to_owned(),
        )]
        .into(),
    );
    let fields = [
        field("at", DataType::Date32, true),
        point,
        field("t", DataType::Timestamp(TimeUnit::Second, None), true),
    ];
    assert_eq!(
        check_fields(&fields, Options::default()).unwrap(),
        r#"{"kind":"column","index":0,"column":"at","state":"plain","type":"date32"}
{"kind":"column","index":1,"column":"p","state":"geometry","type":"point separated XY","type_from":"field","extension":"geoarrow.point","edges":"planar","geometry_types":["Point"]}
{"kind":"column","index":2,"column":"t","state":"plain","type":"timestamp[s]"}
"#
    );
}

#[test]
fn a_dictionary_says_its_order() {
    let kind = DataType::Dictionary(Box::new(DataType::Int8), Box::new(DataType::Utf8));
    for (is_ordered, number) in [(false, 0), (true, 1)] {
        let one = field("f", kind.clone(), true).with_dict_is_ordered(is_ordered);
        let other = format!("dictionary<values=utf8, indices=int8, ordered={number}>");
        let wanted = format!(r#"{{"name":"f","nullable":true,"type":{{"other":"{other}"}}}}"#);
        assert_eq!(field_line(&one), Ok(wanted));
    }
}

#[test]
fn the_metadata_of_a_schema() {
    let geo = [("geo".to_owned(), r#"{"version":"1.1.0"}"#.to_owned())];
    let fields = vec![field("g", DataType::Binary, true)];
    let schema = Schema::new_with_metadata(fields, geo.into());
    let report = check_arrow_schema(&schema, Options::default()).unwrap();
    let found = findings(&report).unwrap();
    assert!(!found.is_empty());
    assert!(found.iter().all(|it| it.source() == Some("geo")));
    let columns = check_fields(schema.fields.iter().map(|it| &**it), Options::default());
    assert_eq!(report.split_inclusive('\n').next(), columns.as_deref().ok());
}

#[test]
fn many_fields() {
    let one = |at: usize| field(&format!("c{at}"), DataType::Utf8, true);
    let fields: Vec<Field> = (0..10_000).map(one).collect();
    let report = check_fields(&fields, Options::default()).unwrap();
    assert_eq!(report.lines().count(), 10_000);
    for (at, line) in report.lines().enumerate() {
        let place = format!(r#"{{"kind":"column","index":{at},"column":"c{at}","#);
        assert!(line.starts_with(&place), "{line}");
    }
}

#[test]
fn a_field_that_nests_too_deep() {
    let text = field("t", DataType::Utf8, true);
    let report = check_fields(&[text.clone(), nested(60)], Options::default());
    assert_eq!(report.unwrap().lines().count(), 2);
    for levels in [62, 64, 200] {
        let why = refused(check_fields(
            &[text.clone(), nested(levels)],
            Options::default(),
        ));
        assert_eq!((why.code(), why.index()), ("BadSchema", Some(1)));
        assert_eq!(refused(field_line(&nested(levels))).code(), "BadSchema");
    }
}

#[test]
fn what_no_structure_holds() {
    let named = field("a\0", DataType::Utf8, true);
    for error in [
        field_line(&named).unwrap_err(),
        check_fields([&named], Options::default()).unwrap_err(),
    ] {
        assert!(matches!(&error, Error::Arrow(_)));
        assert!(Box::<dyn std::error::Error>::from(error)
            .to_string()
            .contains("NUL"));
    }
}
