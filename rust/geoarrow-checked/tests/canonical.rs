//! Columns in normal form: as the table says that all languages share.
mod common;

use common::{from_hex, read};
use geoarrow_checked::{canonical, check, write_schema, Error, Options};
use std::thread;

/// A case of native/canonical.rows: the bytes of a file, whether it is refused, and the lines of its columns, or the one that says why.
#[derive(Default)]
struct Case {
    bytes: Vec<u8>,
    is_refused: bool,
    lines: String,
}

fn cases() -> Vec<Case> {
    let text = String::from_utf8(read("native/canonical.rows")).unwrap();
    let mut cases: Vec<Case> = Vec::new();
    for line in text.lines() {
        match line.split_once(' ').unwrap_or((line, "")) {
            ("file", digits) => cases.push(Case {
                bytes: from_hex(digits.as_bytes()),
                ..Case::default()
            }),
            ("refused", _) => cases.last_mut().unwrap().is_refused = true,
            _ if line.starts_with('{') => {
                let case = cases.last_mut().unwrap();
                case.lines += line;
                case.lines += "\n";
            }
            _ => {}
        }
    }
    assert!(cases.len() > 40);
    cases
}

#[test]
fn each_case_of_the_table() {
    for case in cases() {
        match canonical(&case.bytes) {
            Ok(lines) => assert_eq!((lines, false), (case.lines, case.is_refused)),
            Err(Error::Refused(why)) => {
                assert_eq!(
                    (why.as_json(), true),
                    (case.lines.trim_end(), case.is_refused)
                );
                assert_eq!(why.file(), None);
            }
            Err(error) => panic!("{error}"),
        }
    }
}

#[test]
fn what_is_refused_is_so_as_in_a_check() {
    for case in cases() {
        let checked = check(&case.bytes, Options::default());
        assert_eq!(canonical(&case.bytes).err(), checked.err());
    }
}

#[test]
fn the_stream_of_the_lines_has_these_columns() {
    let mut streams = 0;
    for case in cases().into_iter().filter(|it| !it.is_refused) {
        match write_schema(case.lines.as_bytes()) {
            Ok(stream) => {
                let again = canonical(&stream).unwrap();
                if canonical(case.lines.as_bytes()).as_ref() == Ok(&case.lines) {
                    assert_eq!(again, case.lines);
                }
                streams += 1;
            }
            Err(Error::Refused(why)) => assert_eq!(why.code(), "ColumnType"),
            Err(error) => panic!("{error}"),
        }
    }
    assert!(streams > 20);
}

#[test]
fn more_than_the_first_room() {
    let union = r#"{"mode":"sparse","union":[[1,{"name":"p","nullable":true,"type":{"fixed_size_list":{"name":"xy","nullable":true,"type":"float64"},"size":2}}]]}"#;
    let metadata = r#"{"ARROW:extension:name":"geoarrow.geometry"}"#;
    let line =
        format!("{{\"metadata\":{metadata},\"name\":\"g\",\"nullable\":true,\"type\":{union}}}\n");
    let one = canonical(line.as_bytes()).unwrap();
    assert!(one.len() > 4096 + 2 * line.len());
    assert_eq!(canonical(line.repeat(500).as_bytes()), Ok(one.repeat(500)));
}

#[test]
fn eight_threads() {
    let cases = cases();
    let wanted: Vec<_> = cases.iter().map(|it| canonical(&it.bytes)).collect();
    thread::scope(|scope| {
        for _ in 0..8 {
            scope.spawn(|| {
                for (case, wanted) in cases.iter().zip(&wanted) {
                    assert_eq!(&canonical(&case.bytes), wanted);
                }
            });
        }
    });
}
