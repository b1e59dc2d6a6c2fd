//! Refused files: each as the table says that all languages share, with a name and without.
mod common;

use common::{from_hex, object_of, quoted, read, refused};
use geoarrow_checked::{
    bad_lines, check, check_named, findings, write_schema, Error, Finding, Options,
};

const TEXT: &str = r#"{"name":"t","nullable":true,"type":"utf8"}"#;
const OTHER: &str = r#"{"name":"at","nullable":true,"type":{"other":"timestamp[ms]"}}"#;

/// The cases of native/refused.rows: the bytes, and the line of their finding without the name of a file.
fn cases() -> Vec<(Vec<u8>, String)> {
    let cases = cases_of("native/refused.rows");
    assert!(cases.len() > 100);
    cases
}

/// The cases of a table: the bytes, and the line of their finding without the name of a file.
fn cases_of(path: &str) -> Vec<(Vec<u8>, String)> {
    let text = String::from_utf8(read(path)).unwrap();
    let lines: Vec<&str> = text
        .lines()
        .filter(|line| !line.is_empty() && !line.starts_with('#'))
        .collect();
    assert!(lines.len() % 2 == 0);
    let cases = lines.chunks_exact(2);
    cases
        .map(|case| (from_hex(case[0].as_bytes()), case[1].to_owned()))
        .collect()
}

/// The words behind a file's name (docs/FORMAT.md, 2.8).
fn words_of(why: &Finding) -> String {
    let number = |word, number: Option<u64>| number.map(|it| format!("{word} {it}"));
    let parts = [
        number("column", why.index()),
        why.source().map(str::to_owned),
        number("byte", why.byte()),
        number("line", why.line()),
    ];
    let parts: Vec<_> = parts.into_iter().flatten().collect();
    let blank = if parts.is_empty() { "" } else { " " };
    let (code, place) = (why.code(), parts.join(", "));
    let (found, expected) = (why.found().unwrap(), why.expected());
    let help = why.help().map(|it| format!(". {it}")).unwrap_or_default();
    format!("error[{code}]{blank}{place}: found {found}; expected {expected}{help}")
}

#[test]
fn each_case_of_the_table() {
    let mut wrong = Vec::new();
    for (bytes, line) in cases() {
        let why = refused(check(&bytes, Options::default()));
        if why.as_json() != line {
            wrong.push(format!("{}\n    not {line}", why.as_json()));
        }
        assert_eq!(object_of(&why, true), why.as_json());
        assert_eq!(why.file(), None);
        let error = Error::Refused(why.clone());
        assert_eq!(error.to_string(), words_of(&why));
    }
    assert!(wrong.is_empty(), "{}", wrong.join("\n"));
}

#[test]
fn each_case_with_a_name() {
    let name = r#"C:\müll "🗺".parquet"#;
    for (bytes, _) in cases() {
        let unnamed = refused(check(&bytes, Options::default()));
        let why = refused(check_named(name, &bytes, Options::default()));
        assert_eq!(why.file(), Some(name));
        assert_eq!(object_of(&why, true), why.as_json());
        let member = format!(r#""file":{},"#, quoted(name));
        assert_eq!(why.as_json().replacen(&member, "", 1), unnamed.as_json());
        assert_eq!(why.to_string(), words_of(&unnamed));
    }
}

#[test]
fn each_bad_line_of_the_table() {
    let cases = cases_of("native/bad_lines.rows");
    assert!(cases.len() > 20);
    for (bytes, line) in cases {
        let report = check(&bytes, Options::default()).unwrap();
        let bad = bad_lines(&report).unwrap();
        assert_eq!(bad.len(), 1);
        assert_eq!(bad[0].as_json(), line);
        assert_eq!(object_of(&bad[0], true), line);
        assert_eq!(bad[0].more(), 0);
        let filled = bytes.split(|byte| *byte == b'\n').filter(|line| {
            let blank = |byte: &u8| b" \t\r\xef\xbb\xbf".contains(byte);
            !line.iter().all(blank)
        });
        assert_eq!(report.lines().count(), filled.count());
    }
}

#[test]
fn bad_lines_among_good_ones() {
    let lines = format!("{{}}\n{TEXT}\n\n[\n{OTHER}\n");
    let report = check_named("a.jsonl", lines.as_bytes(), Options::default()).unwrap();
    let bad = bad_lines(&report).unwrap();
    let places: Vec<_> = bad
        .iter()
        .map(|it| (it.code(), it.line(), it.byte()))
        .collect();
    assert_eq!(
        places,
        [("BadLine", Some(1), None), ("BadLine", Some(4), Some(1))]
    );
    assert!(bad.iter().all(|it| it.file() == Some("a.jsonl")));
    let columns = report
        .lines()
        .filter(|it| it.starts_with("{\"kind\":\"column\","));
    assert_eq!((columns.count(), findings(&report).unwrap().len()), (2, 0));
}

#[test]
fn a_hundred_bad_lines_are_told() {
    for (count, more) in [(99, 0), (100, 0), (101, 1), (250, 150)] {
        let lines = format!("{TEXT}\n{}", "7\n".repeat(count));
        let report = check(lines.as_bytes(), Options::default()).unwrap();
        let bad = bad_lines(&report).unwrap();
        assert_eq!(bad.len(), count.min(100));
        assert!(bad[..bad.len() - 1].iter().all(|it| it.more() == 0));
        assert_eq!(bad.last().map(Finding::more), Some(more));
        assert_eq!(report.lines().count(), bad.len() + 1);
    }
}

#[test]
fn the_name_is_in_each_line() {
    let name = "a \"b\"/🗺.jsonl";
    let wanted = |file| {
        format!(
            r#"{{"kind":"column",{file}"index":0,"column":"t","state":"plain","type":"utf8"}}
{{"kind":"column",{file}"index":1,"column":"at","state":"plain","type":"timestamp[ms]"}}
"#
        )
    };
    let lines = [TEXT, OTHER].join("\n");
    let named = |name| check_named(name, lines.as_bytes(), Options::default()).unwrap();
    assert_eq!(named(name), wanted(r#""file":"a \"b\"/🗺.jsonl","#));
    assert_eq!(named(""), wanted(""));
    assert_eq!(
        check(lines.as_bytes(), Options::default()).unwrap(),
        wanted("")
    );
}

#[test]
fn a_name_that_needs_more_room() {
    for name in ["\u{1}".repeat(10_000), "n".repeat(1 << 20)] {
        let why = refused(check_named(&name, b"", Options::default()));
        assert_eq!(why.code(), "EmptyFile");
        assert!(why.file() == Some(&*name)); // (both are long)
        let report = check_named(&name, TEXT.as_bytes(), Options::default()).unwrap();
        assert!(report.len() > name.len() && report.lines().count() == 1);
    }
}

#[test]
fn findings_as_they_are_shown() {
    let mut stream = write_schema(TEXT.as_bytes()).unwrap();
    stream[8..12].copy_from_slice(&[0, 0, 0, 128]); // the root offset, which is the first of the message
    let encrypted = [b"PARE", &[0; 20][..], &20_u32.to_le_bytes(), b"PARE"].concat();
    let formats = "an Arrow file, an Arrow stream, a Parquet file or lines of fields";
    let cut = "The file is cut off, or still being written";
    for (bytes, words) in [
        (
            &b" \n"[..],
            format!("error[EmptyFile] byte 0: found 0 bytes, or blanks alone; expected {formats}. The writing or the copy broke off before its first byte"),
        ),
        (
            b"PK\x03\x04",
            format!("error[ForeignFormat] byte 0: found a zip archive; expected {formats}. Unzip it, and check what is in it"),
        ),
        (
            b"{\n",
            "error[BadLine] byte 1, line 1: found no JSON, or more than 127 levels of it; expected a JSON object. One object on each line: try jq -c . FILE".into(),
        ),
        (
            b"%PDF",
            format!("error[ForeignFormat] byte 0: found a PDF document; expected {formats}"),
        ),
        (
            &stream,
            "error[BadMessage] byte 8: found an offset that leads nowhere; expected an offset that is not 0 and leads no further than the end".into(),
        ),
        (
            b"ARROW1",
            format!("error[Truncated] byte 6: found 4152524f5731; expected ARROW1 at the end. {cut}"),
        ),
        (
            b"PAR1",
            format!("error[Truncated] byte 4: found 50415231; expected PAR1 at the end. {cut}"),
        ),
        (
            b"\xff\xff\xff\xff\x08\0\0\0",
            format!("error[Truncated] byte 8: found 0 bytes; expected 8 bytes. {cut}"),
        ),
        (
            b"\xff\xff\xff\xff\0\0\0\0",
            "error[NoSchema] byte 8: found the end of the stream; expected a schema".into(),
        ),
        (
            &encrypted,
            "error[Encrypted] byte 28: found PARE; expected PAR1. A copy with a plain footer is needed".into(),
        ),
    ] {
        let why = refused(check(bytes, Options::default()));
        assert_eq!(why.to_string(), words);
    }
}

#[test]
fn schemas_that_are_not_written() {
    let why = refused(write_schema(format!("{TEXT}\n{{}}").as_bytes()));
    assert_eq!((why.code(), why.line()), ("BadLine", Some(2)));
    let why = refused(write_schema(format!("{TEXT}\n{TEXT}\n{OTHER}").as_bytes()));
    assert_eq!((why.code(), why.index()), ("ColumnType", Some(2)));
    assert_eq!(
        why.to_string(),
        "error[ColumnType] column 2: found a type that no message can hold; expected a type of Schema.fbs, nested at most 61 levels deep"
    );
    assert_eq!(object_of(&why, true), why.as_json());
}
