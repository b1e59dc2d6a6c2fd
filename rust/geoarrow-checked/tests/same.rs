//! In what files are not as others: as the table says that all languages share, with a name and without.
mod common;

use common::{from_hex, object_of, quoted, read};
use geoarrow_checked::{check, same, same_named, Error, Finding, Options, Severity};
use std::collections::BTreeSet;
use std::thread;

/// A case of native/same.rows: the bytes of both files, whether types are inferred, which file is refused, if one is, and of each finding its object
/// and its words.
#[derive(Default)]
struct Case {
    first: Vec<u8>,
    other: Vec<u8>,
    infer: bool,
    refused: Option<String>,
    found: Vec<(String, String)>,
}

impl Case {
    fn options(&self, notes: bool) -> Options {
        Options {
            infer: self.infer,
            notes,
        }
    }
}

fn cases() -> Vec<Case> {
    let text = String::from_utf8(read("native/same.rows")).unwrap();
    let mut cases: Vec<Case> = Vec::new();
    let mut lines = text
        .lines()
        .filter(|line| !line.is_empty() && !line.starts_with('#'));
    while let Some(line) = lines.next() {
        let (word, rest) = line.split_once(' ').unwrap_or((line, ""));
        if word == "first" {
            cases.push(Case {
                first: from_hex(rest.as_bytes()),
                ..Case::default()
            });
            continue;
        }
        let case = cases.last_mut().unwrap();
        match word {
            "other" => case.other = from_hex(rest.as_bytes()),
            "infer" => case.infer = true,
            "refused" => case.refused = Some(rest.to_owned()),
            _ => {
                let words = lines.next().unwrap().to_owned();
                case.found.push((line.to_owned(), words));
            }
        }
    }
    assert!(cases.len() > 40);
    cases
}

/// What is found, or why a file is refused, as the table has it.
fn said_of(found: &[Finding]) -> Vec<(String, String)> {
    found
        .iter()
        .map(|it| (it.as_json().to_owned(), it.to_string()))
        .collect()
}

/// What a case gives: of a file that is refused the one finding that says why, and which file it is.
fn given(found: Result<Vec<Finding>, Error>) -> (Option<&'static str>, Vec<Finding>) {
    match found {
        Ok(found) => (None, found),
        Err(Error::Refused(why)) => (Some("other"), vec![why]),
        Err(Error::FirstRefused(why)) => (Some("first"), vec![why]),
        Err(error) => panic!("{error}"),
    }
}

#[test]
fn each_case_of_the_table() {
    for case in cases() {
        let (refused, found) = given(same(&case.first, &case.other, case.options(true)));
        assert_eq!(refused, case.refused.as_deref());
        assert_eq!(said_of(&found), case.found);
        for one in &found {
            assert_eq!(object_of(one, true), one.as_json());
            assert_eq!(one.file(), None);
        }
    }
}

#[test]
fn each_case_with_a_name() {
    let name = r#"C:\müll "🗺".parquet"#;
    for case in cases() {
        let (first, other) = (&case.first, &case.other);
        let (refused, found) = given(same_named(first, name, other, case.options(true)));
        assert_eq!(refused, case.refused.as_deref());
        assert_eq!(found.len(), case.found.len());
        let file = Some(name).filter(|_| refused != Some("first"));
        for (one, (line, words)) in found.iter().zip(&case.found) {
            assert_eq!((one.file(), &one.to_string()), (file, words));
            let member = format!(r#""file":{},"#, quoted(name));
            assert_eq!(&one.as_json().replacen(&member, "", 1), line);
        }
    }
}

#[test]
fn notes_are_told_where_they_are_asked_for() {
    let mut noted = 0;
    for case in cases().into_iter().filter(|it| it.refused.is_none()) {
        let found = same(&case.first, &case.other, case.options(false)).unwrap();
        assert!(found.iter().all(|it| it.severity() == Severity::Error));
        let errors = case.found.iter().filter(|it| it.1.starts_with("error["));
        assert_eq!(said_of(&found), errors.cloned().collect::<Vec<_>>());
        noted += case.found.len() - found.len();
    }
    assert!(noted > 3);
}

#[test]
fn each_file_is_as_itself_and_differences_are_so_both_ways_round() {
    let mut words = BTreeSet::new();
    for case in cases().into_iter().filter(|it| it.refused.is_none()) {
        let options = case.options(true);
        assert_eq!(same(&case.first, &case.first, options), Ok(Vec::new()));
        let back = same(&case.other, &case.first, options).unwrap();
        assert_eq!(back.len(), case.found.len());
        words.extend(back.iter().map(|it| it.help().unwrap().to_owned()));
    }
    assert_eq!(words.len(), 7); // those of the table, and that of the note
}

#[test]
fn files_of_each_format() {
    for name in ["file.arrow", "stream.arrows", "geo.parquet"] {
        let bytes = read(&format!("crates/geoarrow_check/data/{name}"));
        let report = check(&bytes, Options::default()).unwrap();
        let columns = report
            .lines()
            .filter(|it| it.starts_with("{\"kind\":\"column\","));
        let found = same(&bytes, b"{}\n", Options::default()).unwrap();
        assert_eq!(found.len(), columns.count());
        assert!(found
            .iter()
            .all(|it| it.help() == Some("The column is missing.")));
    }
}

#[test]
fn more_than_the_first_room() {
    let column = |at| format!("{{\"name\":\"{at}\",\"nullable\":true,\"type\":\"int8\"}}\n");
    let lines: String = (0..2000).map(column).collect();
    let found = same(column(0).as_bytes(), lines.as_bytes(), Options::default()).unwrap();
    assert_eq!(found.len(), 1999);
    assert_eq!(found[1998].column(), Some("1999"));
}

#[test]
fn eight_threads() {
    let (case, wanted) = cases()
        .into_iter()
        .map(|it| (same(&it.first, &it.other, it.options(true)), it))
        .filter_map(|(found, it)| Some((it, found.ok()?)))
        .max_by_key(|(_, found)| found.len())
        .unwrap();
    thread::scope(|scope| {
        for _ in 0..8 {
            scope.spawn(|| {
                for _ in 0..20 {
                    let found = same(&case.first, &case.other, case.options(true));
                    assert_eq!(found.as_ref(), Ok(&wanted));
                }
            });
        }
    });
}
