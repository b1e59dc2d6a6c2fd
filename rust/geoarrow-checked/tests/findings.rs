//! What is found in files: as the table says that all languages share, with a name and without.
mod common;

use common::{from_hex, object_of, read, rows_of};
use geoarrow_checked::{
    check, check_named, column_facts, column_findings, findings, Facts, Finding, Options, Source,
};
use std::collections::BTreeSet;

/// A finding of native/findings.rows: whether it is of a column, its object and its words.
type Row = (bool, String, String);

/// The cases of native/findings.rows: the bytes of a file, and each finding.
fn cases() -> Vec<(Vec<u8>, Vec<Row>)> {
    let text = String::from_utf8(read("native/findings.rows")).unwrap();
    let mut cases: Vec<(Vec<u8>, Vec<Row>)> = Vec::new();
    let mut lines = text
        .lines()
        .filter(|line| !line.is_empty() && !line.starts_with('#'));
    while let Some(line) = lines.next() {
        let said = line.trim_start();
        if said.starts_with('{') {
            let words = lines.next().unwrap().trim_start();
            let row = (said != line, said.to_owned(), words.to_owned());
            cases.last_mut().unwrap().1.push(row);
        } else {
            cases.push((from_hex(line.as_bytes()), Vec::new()));
        }
    }
    assert!(cases.len() > 7);
    for of_column in [false, true] {
        assert!(cases
            .iter()
            .any(|(_, rows)| rows.iter().any(|row| row.0 == of_column)));
    }
    cases
}

/// The findings of a report, those of its columns first.
fn found_in(report: &str) -> Vec<(bool, Finding)> {
    let columns = report
        .lines()
        .filter(|line| line.starts_with("{\"kind\":\"column\","));
    let of_columns = columns.flat_map(|line| column_findings(line).unwrap());
    let of_file = findings(report).unwrap().into_iter();
    of_columns
        .map(|it| (true, it))
        .chain(of_file.map(|it| (false, it)))
        .collect()
}

/// The members of a line that are made of what its facts say, each with its words.
fn members_of(facts: &Facts) -> Vec<(&'static str, Option<String>)> {
    let text = |text: Option<&str>| text.map(|it| format!("\"{it}\""));
    let word = |source: Option<Source>| text(source.map(|it| it.to_string()).as_deref());
    let mut verdicts = String::new();
    for fact in ["crs", "edges", "encoding"] {
        let of_fact = facts.verdicts.iter().filter(|it| it.0 == fact);
        let said: Vec<_> = of_fact
            .map(|it| format!("\"{}\":\"{}\"", it.1, it.2))
            .collect();
        if !said.is_empty() {
            let comma = if verdicts.is_empty() { "" } else { "," };
            verdicts += &format!("{comma}\"{fact}\":{{{}}}", said.join(","));
        }
    }
    let types: Vec<_> = facts
        .geometry_types
        .iter()
        .map(|it| format!("\"{it}\""))
        .collect();
    let types = (!types.is_empty()).then(|| format!("[{}]", types.join(",")));
    vec![
        ("bbox", facts.bbox.clone()),
        ("epoch", facts.epoch.clone()),
        ("geometry_types", types),
        ("orientation", text(facts.orientation.as_deref())),
        ("crs_from", word(facts.crs_from)),
        ("crs_type", text(facts.crs_type.as_deref())),
        ("edges", text(facts.edges.as_deref())),
        ("edges_from", word(facts.edges_from)),
        ("type_from", word(facts.type_from)),
        (
            "verdicts",
            (!verdicts.is_empty()).then(|| format!("{{{verdicts}}}")),
        ),
    ]
}

#[test]
fn each_fact_of_files_with_geo() {
    let mut words = BTreeSet::new();
    for (command, digits, _) in rows_of(&read("crates/file_rows/data/reports/geo_files.rows")) {
        if command != "report_file" {
            continue;
        }
        let report = check(&from_hex(&digits), Options::default()).unwrap();
        let columns = report
            .lines()
            .filter(|it| it.starts_with("{\"kind\":\"column\","));
        for line in columns {
            let facts = column_facts(line).unwrap();
            for (key, wanted) in members_of(&facts) {
                let member = format!("\"{key}\":{}", wanted.as_deref().unwrap_or_default());
                assert_eq!(line.contains(&member), wanted.is_some(), "{key} of {line}");
            }
            let is_null = line.contains("\"crs\":null,");
            assert_eq!(is_null, facts.is_crs_unknown, "{line}");
            words.extend(facts.crs_from.map(|it| it.to_string()));
            words.extend(facts.verdicts.iter().map(|it| it.2.to_string()));
        }
    }
    let sources = ["element", "field", "geo"];
    let verdicts = ["agree", "contradict", "not compared"];
    let all = sources.into_iter().chain(verdicts).map(str::to_owned);
    assert_eq!(words, all.collect());
}

#[test]
fn each_case_of_the_table() {
    let options = Options {
        notes: true,
        ..Options::default()
    };
    for (bytes, wanted) in cases() {
        let found = found_in(&check(&bytes, options).unwrap());
        let said: Vec<_> = found
            .iter()
            .map(|(of, it)| (*of, it.as_json().to_owned(), it.to_string()))
            .collect();
        assert_eq!(said, wanted);
        assert!(found
            .iter()
            .all(|(of, it)| object_of(it, !of) == it.as_json()));
        let named = found_in(&check_named("a.parquet", &bytes, options).unwrap());
        assert_eq!(named.len(), found.len());
        for ((of_column, one), (_, named)) in found.iter().zip(named) {
            assert_eq!(named.file(), (!of_column).then_some("a.parquet"));
            assert_eq!(named.to_string(), one.to_string());
            let line = named.as_json().replacen(r#""file":"a.parquet","#, "", 1);
            assert_eq!(line, one.as_json());
        }
    }
}
