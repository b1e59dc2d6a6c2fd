//! The line of each data type of arrow-schema: a word or an object where a line can hold the type (docs/FORMAT.md, 2.1), otherwise its notation (3.2 and 3.4).
#![cfg(feature = "arrow-schema")]
use arrow_schema::DataType::{self, *};
use arrow_schema::{Field, FieldRef, IntervalUnit, TimeUnit, UnionFields, UnionMode};
use geoarrow_checked::arrow::{check_fields, field_line};
use geoarrow_checked::{answer, Command, Options};
use std::collections::BTreeSet;
use std::sync::Arc;

fn field(name: &str, kind: DataType, nullable: bool) -> FieldRef {
    Arc::new(Field::new(name, kind, nullable))
}

/// The line of a field that may be null: a type that a line holds is written as it is there, any other by its notation.
fn line(is_held: bool, text: &str) -> String {
    let kind = if is_held {
        text.to_owned()
    } else {
        format!(r#"{{"other":"{text}"}}"#)
    };
    format!(r#"{{"name":"f","nullable":true,"type":{kind}}}"#)
}

/// The types that a line holds, with how it writes them.
fn held() -> Vec<(DataType, &'static str)> {
    let float = || field("v", Float64, false);
    let two = || UnionFields::try_new([7, 1], [float(), field("n", Null, true)]).unwrap();
    vec![
        (Null, r#""null""#),
        (Boolean, r#""boolean""#),
        (Int8, r#""int8""#),
        (Int16, r#""int16""#),
        (Int32, r#""int32""#),
        (Int64, r#""int64""#),
        (UInt8, r#""uint8""#),
        (UInt16, r#""uint16""#),
        (UInt32, r#""uint32""#),
        (UInt64, r#""uint64""#),
        (Float16, r#""float16""#),
        (Float32, r#""float32""#),
        (Float64, r#""float64""#),
        (Date32, r#""date32""#),
        (Date64, r#""date64""#),
        (Binary, r#""binary""#),
        (LargeBinary, r#""large_binary""#),
        (BinaryView, r#""binary_view""#),
        (Utf8, r#""utf8""#),
        (LargeUtf8, r#""large_utf8""#),
        (Utf8View, r#""utf8_view""#),
        (
            List(float()),
            r#"{"list":{"name":"v","nullable":false,"type":"float64"}}"#,
        ),
        (
            LargeList(float()),
            r#"{"large_list":{"name":"v","nullable":false,"type":"float64"}}"#,
        ),
        (
            FixedSizeList(float(), 3),
            r#"{"fixed_size_list":{"name":"v","nullable":false,"type":"float64"},"size":3}"#,
        ),
        (
            Struct(vec![(*float()).clone(), Field::new("n", Null, true)].into()),
            r#"{"struct":[{"name":"v","nullable":false,"type":"float64"},{"name":"n","nullable":true,"type":"null"}]}"#,
        ),
        (Struct(Vec::new().into()), r#"{"struct":[]}"#),
        (
            Union(two(), UnionMode::Dense),
            r#"{"mode":"dense","union":[[7,{"name":"v","nullable":false,"type":"float64"}],[1,{"name":"n","nullable":true,"type":"null"}]]}"#,
        ),
        (
            Union(two(), UnionMode::Sparse),
            r#"{"mode":"sparse","union":[[7,{"name":"v","nullable":false,"type":"float64"}],[1,{"name":"n","nullable":true,"type":"null"}]]}"#,
        ),
    ]
}

/// The other types, with their notation.
fn others() -> Vec<(DataType, &'static str)> {
    let item = || field("i", Int8, true);
    let time = || field("t", Time64(TimeUnit::Nanosecond), false);
    let two = || UnionFields::try_new([5, 1], [item(), time()]).unwrap();
    let entries = vec![Field::new("k", Utf8, false), Field::new("v", Utf8, true)];
    let entries = field("entries", Struct(entries.into()), false);
    vec![
        (Timestamp(TimeUnit::Second, None), "timestamp[s]"),
        (Timestamp(TimeUnit::Millisecond, None), "timestamp[ms]"),
        (Timestamp(TimeUnit::Microsecond, None), "timestamp[us]"),
        (Timestamp(TimeUnit::Nanosecond, None), "timestamp[ns]"),
        (
            Timestamp(TimeUnit::Second, Some("UTC".into())),
            "timestamp[s, tz=UTC]",
        ),
        (
            Timestamp(TimeUnit::Nanosecond, Some("+01:00".into())),
            "timestamp[ns, tz=+01:00]",
        ),
        (Time32(TimeUnit::Second), "time32[s]"),
        (Time32(TimeUnit::Millisecond), "time32[ms]"),
        (Time64(TimeUnit::Microsecond), "time64[us]"),
        (Time64(TimeUnit::Nanosecond), "time64[ns]"),
        (Duration(TimeUnit::Second), "duration[s]"),
        (Duration(TimeUnit::Millisecond), "duration[ms]"),
        (Duration(TimeUnit::Microsecond), "duration[us]"),
        (Duration(TimeUnit::Nanosecond), "duration[ns]"),
        (Interval(IntervalUnit::YearMonth), "month_interval"),
        (Interval(IntervalUnit::DayTime), "day_time_interval"),
        (
            Interval(IntervalUnit::MonthDayNano),
            "month_day_nano_interval",
        ),
        (FixedSizeBinary(16), "fixed_size_binary[16]"),
        (Decimal32(9, 2), "decimal32(9, 2)"),
        (Decimal64(18, 3), "decimal64(18, 3)"),
        (Decimal128(38, -2), "decimal128(38, -2)"),
        (Decimal256(76, 5), "decimal256(76, 5)"),
        (
            Dictionary(Box::new(Int16), Box::new(LargeUtf8)),
            "dictionary<values=large_utf8, indices=int16, ordered=0>",
        ),
        (ListView(item()), "list_view<i: int8>"),
        (
            LargeListView(time()),
            "large_list_view<t: time64[ns] not null>",
        ),
        (
            RunEndEncoded(item(), time()),
            "run_end_encoded<i: int8, t: time64[ns] not null>",
        ),
        (
            Map(entries.clone(), false),
            "map<entries: struct<k: utf8 not null, v: utf8> not null>",
        ),
        (
            Map(entries, true),
            "map<entries: struct<k: utf8 not null, v: utf8> not null>",
        ),
        (List(time()), "list<t: time64[ns] not null>"),
        (LargeList(time()), "large_list<t: time64[ns] not null>"),
        (
            FixedSizeList(time(), 2),
            "fixed_size_list<t: time64[ns] not null>[2]",
        ),
        (
            Struct(vec![(*item()).clone(), (*time()).clone()].into()),
            "struct<i: int8, t: time64[ns] not null>",
        ),
        (
            Union(two(), UnionMode::Dense),
            "dense_union<i: int8=5, t: time64[ns] not null=1>",
        ),
        (
            Union(two(), UnionMode::Sparse),
            "sparse_union<i: int8=5, t: time64[ns] not null=1>",
        ),
    ]
}

/// The number of a type's name, for each that arrow-schema has: a new one does not compile until it has a row.
fn number(kind: &DataType) -> usize {
    match kind {
        Null => 0,
        Boolean => 1,
        Int8 => 2,
        Int16 => 3,
        Int32 => 4,
        Int64 => 5,
        UInt8 => 6,
        UInt16 => 7,
        UInt32 => 8,
        UInt64 => 9,
        Float16 => 10,
        Float32 => 11,
        Float64 => 12,
        Timestamp(..) => 13,
        Date32 => 14,
        Date64 => 15,
        Time32(_) => 16,
        Time64(_) => 17,
        Duration(_) => 18,
        Interval(_) => 19,
        Binary => 20,
        FixedSizeBinary(_) => 21,
        LargeBinary => 22,
        BinaryView => 23,
        Utf8 => 24,
        LargeUtf8 => 25,
        Utf8View => 26,
        List(_) => 27,
        ListView(_) => 28,
        FixedSizeList(..) => 29,
        LargeList(_) => 30,
        LargeListView(_) => 31,
        Struct(_) => 32,
        Union(..) => 33,
        Dictionary(..) => 34,
        Decimal32(..) => 35,
        Decimal64(..) => 36,
        Decimal128(..) => 37,
        Decimal256(..) => 38,
        Map(..) => 39,
        RunEndEncoded(..) => 40,
    }
}

#[test]
fn each_type_has_a_row() {
    let rows = [held(), others()].concat();
    let numbers: BTreeSet<usize> = rows.iter().map(|(kind, _)| number(kind)).collect();
    assert!(numbers.into_iter().eq(0..41));
}

#[test]
fn the_line_of_each_type() {
    for (rows, is_held) in [(held(), true), (others(), false)] {
        for (kind, text) in rows {
            let found = field_line(&field("f", kind.clone(), true)).unwrap();
            assert_eq!(found, line(is_held, text), "{kind:?}");
            // a field without a GeoArrow name, or no field
            let wanted = if is_held { "none" } else { "error field" };
            assert_eq!(answer(Command::Canon, found.as_bytes()).unwrap(), wanted);
        }
    }
}

#[test]
fn other_types_anywhere_below() {
    for (kind, text) in others() {
        let inner = field("o", kind, false);
        let list = List(field("l", LargeList(inner), true));
        let wanted = line(false, &format!("list<l: large_list<o: {text} not null>>"));
        assert_eq!(field_line(&field("f", list, true)), Ok(wanted));
    }
}

#[test]
fn the_report_of_each_type() {
    let fields: Vec<Field> = [held(), others()]
        .concat()
        .into_iter()
        .map(|(kind, _)| Field::new("f", kind, true))
        .collect();
    let report = check_fields(&fields, Options::default()).unwrap();
    let of_others: Vec<&str> = report.lines().skip(held().len()).collect();
    assert_eq!(of_others.len(), others().len());
    for (line, (_, text)) in of_others.into_iter().zip(others()) {
        assert!(
            line.contains(&format!(r#""state":"plain","type":"{text}""#)),
            "{line}"
        );
    }
    assert_eq!(check_fields([], Options::default()).unwrap(), "");
}
