use super::{bad_lines, column_findings, findings, Finding, Severity};
use crate::Error;

/// With a value of its own at each key but those of what is refused.
const WHOLE: &str = r#"{"severity":"warning","code":"One","file":"two","column":"three","path":["four","fi.ve"],"in":"six","pointer":"/seven","byte":8,"found":"nine","expected":"ten","help":"eleven.","more":12}"#;
const LEAST: &str = r#"{"severity":"note","code":"One","expected":"two"}"#;
const COLUMN: &str = r#"{"kind":"column","index":0,"column":"{\"kind\":\"finding\",","state":"plain","type":"int64"}"#;
/// With a value of its own at each key of what is refused.
const REFUSED: &str = r#"{"kind":"finding","severity":"error","code":"One","file":"two","index":3,"in":"four","byte":5,"line":6,"found":"eight","expected":"nine","help":"ten","more":11}"#;

/// The line of a finding of a file, whose object this is: it begins with its kind.
fn line_of(object: &str) -> String {
    object.replacen('{', r#"{"kind":"finding","#, 1)
}

/// The line of a column with these members behind the others.
fn column(more: &str) -> String {
    COLUMN.replacen(":\"int64\"}", &format!(":\"int64\",{more}}}"), 1)
}

fn unread<T>(line: &str) -> Result<T, Error> {
    Err(Error::Line(line.to_owned()))
}

#[test]
fn each_key_is_what_it_says() {
    let finding = Finding::read(WHOLE).unwrap();
    assert_eq!(finding.severity(), Severity::Warning);
    assert_eq!((finding.code(), finding.expected()), ("One", "ten"));
    assert_eq!(finding.file(), Some("two"));
    assert_eq!(finding.column(), Some("three"));
    assert_eq!(finding.path(), ["four", "fi.ve"]);
    assert_eq!(finding.source(), Some("six"));
    assert_eq!(finding.pointer(), Some("/seven"));
    assert_eq!(finding.byte(), Some(8));
    assert_eq!(finding.found(), Some("nine"));
    assert_eq!(finding.help(), Some("eleven."));
    assert_eq!(finding.more(), 12);
    assert_eq!(finding.as_json(), WHOLE);
}

#[test]
fn the_keys_of_what_is_refused() {
    let finding = Finding::of_line(REFUSED).unwrap();
    let numbers = [finding.index(), finding.byte(), finding.line()];
    assert_eq!(numbers, [3, 5, 6].map(Some));
    assert_eq!(finding.more(), 11);
    assert_eq!(finding.file(), Some("two"));
    assert_eq!(finding.source(), Some("four"));
    assert_eq!(finding.found(), Some("eight"));
    assert_eq!((finding.expected(), finding.help()), ("nine", Some("ten")));
    assert_eq!(finding.as_json(), REFUSED);
    let words = "error[One] column 3, four, byte 5, line 6: found eight; expected nine. ten";
    assert_eq!(finding.to_string(), words); // (how many more there are is said behind all of these)
    let no_line = Finding::of_line(&REFUSED.replacen(r#""line":6,"#, "", 1)).unwrap();
    let words = words.replacen("line 6", "and 11 more", 1);
    assert_eq!(no_line.to_string(), words);
}

#[test]
fn another_kind_is_no_finding() {
    for kind in ["column", "Finding", ""] {
        let line = LEAST.replacen('{', &format!("{{\"kind\":\"{kind}\","), 1);
        assert_eq!(Finding::read(&line), None);
        assert_eq!(Finding::of_line(&line), None);
    }
    assert_eq!(Finding::of_line(LEAST), None);
}

#[test]
fn bad_lines_stand_apart() {
    let report = format!("{COLUMN}\n{REFUSED}\n{}\n", line_of(LEAST));
    assert_eq!(
        bad_lines(&report),
        Ok(vec![Finding::of_line(REFUSED).unwrap()])
    );
    let others = findings(&report).unwrap();
    assert_eq!(others, [Finding::of_line(&line_of(LEAST)).unwrap()]);
    assert_eq!(bad_lines(""), Ok(Vec::new()));
    assert_eq!(bad_lines(&format!("{COLUMN}\n{LEAST}\n")), unread(LEAST));
}

#[test]
fn what_is_absent_is_none() {
    let finding = Finding::read(LEAST).unwrap();
    assert_eq!(finding.severity(), Severity::Note);
    assert_eq!((finding.file(), finding.column()), (None, None));
    assert_eq!((finding.source(), finding.pointer()), (None, None));
    assert_eq!((finding.found(), finding.help()), (None, None));
    assert_eq!((finding.byte(), finding.more()), (None, 0));
    let numbers = [finding.index(), finding.line()];
    assert_eq!(numbers, [None; 2]);
    assert!(finding.path().is_empty());
    assert_eq!(finding.to_string(), "note[One]: expected two");
}

#[test]
fn the_words_of_each_part() {
    for (absent, words) in [
        ("", "column three, at four.fi.ve, six /seven, byte 8, and 12 more: found nine; expected ten. eleven."),
        (r#""column":"three","#, "at four.fi.ve, six /seven, byte 8, and 12 more: found nine; expected ten. eleven."),
        (r#""path":["four","fi.ve"],"#, "column three, six /seven, byte 8, and 12 more: found nine; expected ten. eleven."),
        (r#""pointer":"/seven","#, "column three, at four.fi.ve, six, byte 8, and 12 more: found nine; expected ten. eleven."),
        (r#""byte":8,"#, "column three, at four.fi.ve, six /seven, and 12 more: found nine; expected ten. eleven."),
        (r#","more":12"#, "column three, at four.fi.ve, six /seven, byte 8: found nine; expected ten. eleven."),
        (r#""found":"nine","#, "column three, at four.fi.ve, six /seven, byte 8, and 12 more: expected ten. eleven."),
        (r#","help":"eleven.""#, "column three, at four.fi.ve, six /seven, byte 8, and 12 more: found nine; expected ten"),
    ] {
        let finding = Finding::read(&WHOLE.replacen(absent, "", 1)).unwrap();
        assert_eq!(finding.to_string(), format!("warning[One] {words}"));
    }
}

#[test]
fn a_place_that_is_the_first() {
    for (members, words) in [
        (r#""path":["a"]"#, "at a"),
        (r#""in":"footer","byte":0"#, "footer, byte 0"),
        (r#""in":"geo","pointer":"""#, "geo"),
        (r#""in":"geo","pointer":"/a""#, "geo /a"),
        (r#""column":"","path":["",""]"#, "column , at ."),
        (r#""byte":7,"more":3"#, "byte 7, and 3 more"),
        (r#""more":3"#, "and 3 more"),
    ] {
        let line = format!(r#"{{"severity":"error","code":"A",{members},"expected":"b"}}"#);
        let finding = Finding::read(&line).unwrap();
        assert_eq!(finding.to_string(), format!("error[A] {words}: expected b"));
    }
}

#[test]
fn each_severity_has_its_word() {
    for (word, severity) in [
        ("error", Severity::Error),
        ("warning", Severity::Warning),
        ("note", Severity::Note),
    ] {
        let line = LEAST.replace("note", word);
        assert_eq!(Finding::read(&line).unwrap().severity(), severity);
        assert_eq!(severity.to_string(), word);
    }
    assert!(Severity::Error > Severity::Warning && Severity::Warning > Severity::Note);
}

#[test]
fn lines_of_columns_are_none() {
    let lines = [WHOLE, LEAST].map(line_of);
    let report = format!("{COLUMN}\n{}\n{COLUMN}\n{}\n", lines[0], lines[1]);
    let found = findings(&report).unwrap();
    assert!(found.iter().map(Finding::as_json).eq(&lines));
    assert!(found.iter().map(Finding::code).eq(["One", "One"]));
    assert_eq!(findings(""), Ok(Vec::new()));
    let found = column(&format!(r#""findings":[{WHOLE}]"#));
    assert_eq!(findings(&found), Ok(Vec::new()));
}

#[test]
fn the_findings_of_a_column() {
    let tricky = r#"{"severity":"error","code":"Two","path":["]}","\"findings\":["],"found":",\"findings\":[{}]","expected":"]"}"#;
    let line = column(&format!(r#""findings":[{WHOLE},{tricky},{LEAST}]"#));
    let wanted = [WHOLE, tricky, LEAST];
    let found = column_findings(&line).unwrap();
    assert_eq!(found, wanted.map(|it| Finding::read(it).unwrap()));
    assert!(found.iter().map(Finding::as_json).eq(wanted));
    assert_eq!(found[1].path(), ["]}", "\"findings\":["]);
    assert_eq!(column_findings(COLUMN), Ok(Vec::new()));
    assert_eq!(column_findings(&column(r#""findings":[]"#)), Ok(Vec::new()));
    let deep = ["[".repeat(200_000), "]".repeat(200_000)].concat();
    let crs = format!(r#""crs":{{"a":[1.50,-2,null,{{}}],"findings":[{LEAST}],"deep":{deep}}}"#);
    assert_eq!(column_findings(&column(&crs)), Ok(Vec::new()));
    let line = column(&format!(
        r#"{crs},"findings":[{LEAST}],"verdicts":{{"a":[]}}"#
    ));
    assert_eq!(column_findings(&line).unwrap()[0].as_json(), LEAST);
}

#[test]
fn lines_that_are_none() {
    for line in [
        "",
        "{}",
        "{",
        r#"{"severity":"error","code":"A"}"#,
        r#"{"severity":"error","expected":"b"}"#,
        r#"{"code":"A","expected":"b"}"#,
        r#"{"severity":"fault","code":"A","expected":"b"}"#,
        r#"{"severity":1,"code":"A","expected":"b"}"#,
        r#"{"severity":"error","code":1,"expected":"b"}"#,
        r#"{"severity":"error","code":"A","expected":1}"#,
        r#"{"severity":"error","code":"A","column":1,"expected":"b"}"#,
        r#"{"severity":"error","code":"A","path":"a","expected":"b"}"#,
        r#"{"severity":"error","code":"A","path":[1],"expected":"b"}"#,
        r#"{"severity":"error","code":"A","path":["a",],"expected":"b"}"#,
        r#"{"severity":"error","code":"A","byte":"7","expected":"b"}"#,
        r#"{"severity":"error","code":"A","byte":-7,"expected":"b"}"#,
        r#"{"severity":"error","code":"A","expected":"b","help":null}"#,
        r#"{"severity":"error","code":"A","expected":"b","more":"1"}"#,
        r#"{"severity":"error","code":"A","expected":"b"} "#,
        r#"{"kind":1,"severity":"error","code":"A","expected":"b"}"#,
        r#"{"severity":"error","code":"A","index":"1","expected":"b"}"#,
        r#"{"severity":"error","code":"A","line":"1","expected":"b"}"#,
        r#"{"severity":"error","code":"A","line":null,"expected":"b"}"#,
    ] {
        assert_eq!(Finding::read(line), None, "{line}");
        let (least, whole) = (line_of(LEAST), line_of(WHOLE));
        for line in [line.to_owned(), line_of(line)] {
            let report = format!("{COLUMN}\n{least}\n{line}\n{whole}\n");
            assert_eq!(findings(&report), unread(&line));
        }
        assert_eq!(column_findings(line), unread(line));
        let of_column = column(&format!(r#""findings":[{LEAST},{line}]"#));
        assert_eq!(column_findings(&of_column), unread(&of_column));
    }
    for line in [
        LEAST,
        &line_of(LEAST),
        r#"{"column":"a","index":0,"state":"plain","type":"int64"}"#,
        r#"{"kind":"column","column":"a","findings":{}}"#,
        r#"{"kind":"column","column":"a","findings":["a"]}"#,
        r#"{"kind":"column","column":"a","findings":[}"#,
        r#"{"kind":"column","column":"a""#,
    ] {
        assert_eq!(column_findings(line), unread(line));
    }
}

#[test]
fn unknown_keys_are_passed_over() {
    let more = r#"{"severity":"error","code":"A","bytes":7,"expected":"b","row":"c","rows":[{"found":"d"}],"last":true,"least":-0.5}"#;
    let finding = Finding::read(more).unwrap();
    assert_eq!(finding.to_string(), "error[A]: expected b");
    assert_eq!(finding.as_json(), more);
}
