use super::{items, members, Value};

/// The text that stands so in an object.
fn text(written: &str) -> Option<String> {
    match members(&format!("{{\"k\":\"{written}\"}}"))?.pop()? {
        (_, Value::Text(text)) => Some(text),
        _ => None,
    }
}

#[test]
fn the_members_of_an_object() {
    let found = members(r#"{"a":"","":18446744073709551615,"a\"b":"{\"c\":1}","z":0}"#).unwrap();
    let wanted = [
        ("a", Value::Text(String::new())),
        ("", Value::Number(u64::MAX)),
        ("a\"b", Value::Text("{\"c\":1}".into())),
        ("z", Value::Number(0)),
    ];
    assert_eq!(found, wanted.map(|(key, value)| (key.to_owned(), value)));
    assert_eq!(members("{}").unwrap(), []);
}

#[test]
fn each_escape() {
    let simple = [
        (r#"\""#, "\""),
        (r"\\", "\\"),
        (r"\/", "/"),
        (r"\b", "\u{8}"),
        (r"\f", "\u{c}"),
        (r"\n", "\n"),
        (r"\r", "\r"),
        (r"\t", "\t"),
        (r"\u0000", "\0"),
        (r"\u00e9\u00E9", "éé"),
        (r"\ud7ff\ue000\uffff", "\u{d7ff}\u{e000}\u{ffff}"),
        (r"\\u0041", "\\u0041"),
    ];
    for (written, wanted) in simple {
        assert_eq!(text(written).as_deref(), Some(wanted), "{written}");
    }
}

#[test]
fn pairs_of_surrogates() {
    for (written, wanted) in [
        (r"\ud800\udc00", "\u{10000}"),
        (r"\uD83D\uDDFA\ufe0f", "🗺\u{fe0f}"),
        (r"\ud83c\udf0d\ud83c\udf0e", "🌍🌎"),
        (r"\udbff\udfff", "\u{10ffff}"),
    ] {
        assert_eq!(text(written).as_deref(), Some(wanted), "{written}");
    }
    for written in [
        r"\ud800",
        r"\udfff",
        r"\udc00\ud800",
        r"\ud800\ud800",
        r"\ud800\u0041",
        r"\ud800\ndc00",
        r"\ud800xudc00",
        r"\ud800\",
    ] {
        assert_eq!(text(written), None, "{written}");
    }
}

#[test]
fn what_is_no_such_object() {
    for other in [
        "",
        "{",
        "}",
        "[]",
        "{}}",
        "{}\n",
        r#"{"a"}"#,
        r#"{"a":}"#,
        r#"{"a":1"#,
        r#"{"a":1,}"#,
        r#"{,"a":1}"#,
        r#"{"a":1"b":2}"#,
        r#"{"a":1}{"b":2}"#,
        r#"{ "a":1}"#,
        r#"{a:1}"#,
        r#"{"a":"}"#,
        r#"{"a":"b}"#,
        r#"{"a":"\"}"#,
        r#"{"a":01}"#,
        r#"{"a":+1}"#,
        r#"{"a":--1}"#,
        r#"{"a":-}"#,
        r#"{"a":.5}"#,
        r#"{"a":00.5}"#,
        r#"{"a":1e}"#,
        r#"{"a":inf}"#,
        r#"{"a":NaN}"#,
        r#"{"a":truE}"#,
        r#"{"a":{}"#,
        r#"{"a":[1}"#,
        r#"{"a":["}"#,
        r#"{"a":[]]}"#,
        "{\"a\":\"\n\"}",
        "{\"a\":\"\u{1f}\"}",
        r#"{"a":"\x"}"#,
        r#"{"a":"\u"}"#,
        r#"{"a":"\u004"}"#,
        r#"{"a":"\u00g0"}"#,
        r#"{"a":"\u+041"}"#,
    ] {
        assert_eq!(members(other), None, "{other}");
    }
}

#[test]
fn values_that_are_not_read() {
    for written in [
        "true",
        "false",
        "null",
        "-1",
        "1.0",
        "0.50",
        "1e2",
        "0e0",
        "-0",
        "18446744073709551616",
        "{}",
        r#"{"b":[1,{}],"]}":"\\"}"#,
    ] {
        let object = format!(r#"{{"a":{written},"z":1}}"#);
        let found = members(&object).unwrap();
        let wanted = [("a", Value::Other(written)), ("z", Value::Number(1))];
        assert_eq!(found, wanted.map(|(key, value)| (key.to_owned(), value)));
    }
}

#[test]
fn arrays_as_they_are_written_and_their_items() {
    for written in ["[]", "[1]", r#"["]",[[]],{"a":"}"}]"#] {
        let object = format!(r#"{{"a":{written}}}"#);
        assert_eq!(
            members(&object).unwrap(),
            [("a".into(), Value::Array(written))]
        );
    }
    let array = r#"["a]",7,[8,[]],{"b":"]"},null]"#;
    let wanted = [
        Value::Text("a]".into()),
        Value::Number(7),
        Value::Array("[8,[]]"),
        Value::Other(r#"{"b":"]"}"#),
        Value::Other("null"),
    ];
    assert_eq!(items(array).unwrap(), wanted);
    assert_eq!(items("[]").unwrap(), []);
    for other in [
        "", "[", "]", "{}", "[1", "1]", "[,]", "[1,]", "[1 ]", "[1}", "[[]", "[]]",
    ] {
        assert_eq!(items(other), None, "{other}");
    }
}
