//! The calls, on the repository's rows, files and streams.
mod common;

use common::{from_hex, read, refused, rows, rows_of};
use geoarrow_checked::{answer, check_named, run, version, write_schema, Command, Error, Options};
use std::thread;

const TEXT: &str = r#"{"name":"t","nullable":true,"type":"utf8"}"#;
/// A column that is named as those of well-known text are.
const WKT: &str = r#"{"name":"wkt","nullable":true,"type":"utf8"}"#;
const OTHER: &str = r#"{"name":"at","nullable":true,"type":{"other":"timestamp[ms]"}}"#;

fn check(bytes: &[u8], infer: bool) -> Result<String, Error> {
    let options = Options {
        infer,
        ..Options::default()
    };
    geoarrow_checked::check(bytes, options)
}

fn command_of(word: &str) -> Option<Command> {
    Some(match word {
        "read" => Command::Read,
        "infer" => Command::Infer,
        "canon" => Command::Canon,
        "columns" => Command::Columns,
        _ => return None,
    })
}

/// The rows under the four commands, which are more than a thousand.
fn lines() -> Vec<(Command, Vec<u8>, Vec<u8>)> {
    let found: Vec<_> = rows("crates/file_rows/data/lines")
        .into_iter()
        .filter_map(|(word, line, wanted)| Some((command_of(&word)?, line, wanted)))
        .collect();
    assert!(found.len() > 1000);
    found
}

fn judge_lines(lines: &[(Command, Vec<u8>, Vec<u8>)]) {
    for (command, line, wanted) in lines {
        let found = answer(*command, line).unwrap();
        assert!(
            found.as_bytes() == wanted,
            "{command:?} {}: {found}",
            String::from_utf8_lossy(&line[..line.len().min(500)])
        );
    }
}

#[test]
fn answers_to_each_row() {
    judge_lines(&lines());
}

#[test]
fn answers_to_eight_threads() {
    let lines: Vec<_> = lines()
        .into_iter()
        .filter(|(_, line, _)| line.len() < 10_000)
        .collect();
    thread::scope(|scope| {
        for _ in 0..8 {
            scope.spawn(|| judge_lines(&lines));
        }
    });
}

#[test]
fn answers_to_all_rows_at_once() {
    for command in [
        Command::Read,
        Command::Infer,
        Command::Canon,
        Command::Columns,
    ] {
        let (mut input, mut wanted) = (Vec::new(), Vec::new());
        for (of, line, answer) in lines() {
            if of == command && line.len() <= 1 << 20 {
                input.extend([line, vec![b'\n']].concat());
                wanted.extend([answer, vec![b'\n']].concat());
            }
        }
        assert!(run(command, &input).unwrap().as_bytes() == wanted);
    }
}

#[test]
fn inputs_at_the_limits() {
    assert_eq!(run(Command::Read, b"").unwrap(), "");
    assert_eq!(
        run(Command::Infer, &vec![b' '; 1 << 20]).unwrap(),
        "error field\n"
    );
    assert_eq!(
        run(Command::Infer, &vec![b' '; (1 << 20) + 1]),
        Err(Error::Limit)
    );
    assert_eq!(
        run(Command::Read, &vec![b'\n'; 1_000_000]).unwrap().len(),
        12_000_000
    );
    assert_eq!(
        run(Command::Read, &vec![b'\n'; 1_000_001]),
        Err(Error::Limit)
    );
}

/// A line of the report without the name of its file.
fn without_file(line: &str) -> String {
    match line.split_once(r#""file":""#) {
        Some((before, behind)) => format!("{before}{}", behind.split_once("\",").unwrap().1),
        None => line.to_owned(),
    }
}

#[test]
fn reports_of_files() {
    let (args, stdout) = (
        read("crates/geoarrow_check/args"),
        read("crates/geoarrow_check/stdout"),
    );
    let (args, stdout) = (
        String::from_utf8(args).unwrap(),
        String::from_utf8(stdout).unwrap(),
    );
    let mut wanted = stdout.lines();
    for file in args
        .split_whitespace()
        .filter(|word| !word.starts_with("--"))
    {
        let options = Options {
            infer: args.contains("--infer"),
            notes: args.contains("--notes"),
        };
        let bytes = read(&format!("crates/geoarrow_check/data/{file}"));
        let named = check_named(file, &bytes, options).unwrap();
        let report = geoarrow_checked::check(&bytes, options).unwrap();
        assert_eq!(named.lines().count(), report.lines().count());
        for (named, line) in named.lines().zip(report.lines()) {
            let wanted = wanted.next().unwrap();
            assert_eq!(named, wanted);
            assert_eq!(line, without_file(wanted));
        }
        assert!(wanted.next().unwrap().starts_with(r#"{"kind":"file","#));
    }
    assert!(wanted.next().unwrap().starts_with(r#"{"kind":"summary","#));
    assert_eq!(wanted.next(), None);
}

#[test]
fn large_inputs() {
    let few = [TEXT, OTHER].join("\n");
    let lines = format!("{few}\n").repeat(20_000);
    assert!(lines.len() > 2 << 20);
    let report = check(lines.as_bytes(), false).unwrap();
    assert_eq!(report.lines().count(), 40_000);
    let last = report.lines().last().unwrap();
    assert_eq!(
        last,
        r#"{"kind":"column","index":39999,"column":"at","state":"plain","type":"timestamp[ms]"}"#
    );
    let stream = write_schema(format!("{TEXT}\n").repeat(40_000).as_bytes()).unwrap();
    assert!(stream.len() > 2 << 20);
    assert_eq!(check(&stream, false).unwrap().lines().count(), 40_000);
}

#[test]
fn types_that_are_inferred() {
    assert_eq!(
        check(TEXT.as_bytes(), false).unwrap(),
        "{\"kind\":\"column\",\"index\":0,\"column\":\"t\",\"state\":\"plain\",\"type\":\"utf8\"}\n"
    );
    assert_eq!(check(TEXT.as_bytes(), true), check(TEXT.as_bytes(), false));
    assert_eq!(
        check(WKT.as_bytes(), true).unwrap(),
        "{\"kind\":\"column\",\"index\":0,\"column\":\"wkt\",\"state\":\"inferred\",\"type\":\"wkt - -\",\"edges\":\"planar\"}\n"
    );
}

#[test]
fn empty_input() {
    for empty in [&b""[..], b"\n", b" \t\r\n\n  "] {
        assert_eq!(refused(check(empty, true)).code(), "EmptyFile");
    }
    assert_eq!(
        check(format!("\n{TEXT}\n \n").as_bytes(), false),
        check(TEXT.as_bytes(), false)
    );
    assert_eq!(write_schema(b""), write_schema(b"\n"));
}

#[test]
fn a_report_that_is_too_large() {
    let inside = r#"{"metadata":{"ARROW:extension:name":"geoarrow.wkb"},"name":"k","nullable":true,"type":"binary"}"#;
    let long = r"\u0001".repeat(30_000);
    let line = format!(
        r#"{{"name":"t","nullable":true,"type":{{"struct":[{{"name":"{long}","nullable":true,"type":{{"struct":[{}]}}}}]}}}}"#,
        [inside; 16].join(",") // each of their findings has the long name in its path
    );
    let stream = write_schema(line.as_bytes()).unwrap();
    assert_eq!(refused(check(&stream, false)).code(), "ReportTooLarge");
}

#[test]
fn options_and_their_numbers() {
    let crs = r#"{"metadata":{"ARROW:extension:metadata":"{\"crs\":{\"a\":0.5}}","ARROW:extension:name":"geoarrow.wkb"},"name":"g","nullable":true,"type":"binary"}"#;
    for (infer, notes) in [(false, false), (true, false), (false, true), (true, true)] {
        let report =
            geoarrow_checked::check(format!("{WKT}\n{crs}").as_bytes(), Options { infer, notes })
                .unwrap();
        assert_eq!(report.contains(r#""state":"inferred""#), infer);
        assert_eq!(report.contains(r#""code":"CrsNotWhole""#), notes);
    }
}

#[test]
fn the_place_in_an_arrow_file() {
    let whole = read("crates/geoarrow_check/data/file.arrow");
    for length in 6..whole.len() {
        let why = refused(check(&whole[..length], false));
        let last = whole[length.saturating_sub(8)..length].iter();
        let last: String = last.map(|byte| format!("{byte:02x}")).collect();
        assert_eq!((why.code(), why.found()), ("Truncated", Some(&*last)));
        assert_eq!(why.byte(), Some(length as u64));
    }
    let (mut inside, size) = (0, whole.len() - 10);
    let footer = u32::from_le_bytes(whole[size..size + 4].try_into().unwrap()) as usize;
    for at in size - footer..size {
        let mut turned = whole.clone();
        turned[at] ^= 0x81;
        if let Err(Error::Refused(why)) = check(&turned, false) {
            let place = why.byte().unwrap() as usize;
            assert!((size - footer..=whole.len()).contains(&place)); // in the footer, where all of it stands
            assert_eq!(why.source(), None);
            inside += 1;
        }
    }
    assert!(inside > 50);
}

/// The code of a rule, and what is wrong where it is broken, by the tables of docs/FORMAT.md, 2.8 and 3.7; of a rule of
/// what stands at the end, which is told by the bytes there, the code alone.
fn words_of_rule(rule: &str, is_file: bool) -> (String, Option<String>) {
    let format = String::from_utf8(read("docs/FORMAT.md")).unwrap();
    let tables = format.split_once("\n### 3.7 ").unwrap().1;
    let row = tables
        .lines()
        .find(|line| line.starts_with(&format!("| `{rule}` |")))
        .unwrap();
    let wrong = row.split('`').nth(3).unwrap().to_owned();
    let code = match rule {
        "Magic" | "Cut" => "Truncated",
        "FooterSize" => "FooterLength",
        "EndOfStream" => "NoSchema",
        "Message" if !is_file => "NoSchema",
        _ => "BadMessage",
    };
    let is_of_end = matches!(rule, "Magic" | "Cut" | "FooterSize");
    (code.to_owned(), (!is_of_end).then_some(wrong))
}

#[test]
fn rules_that_samples_break() {
    let mut compared = 0;
    for (form, digits, wanted) in rows_of(&read("crates/ipc_samples/data/samples.rows")) {
        let bytes = from_hex(&digits);
        let head: &[u8] = if form == "file" { b"ARROW1" } else { &[255; 4] };
        let Some(rule) = wanted.strip_prefix(b"refused ") else {
            continue;
        };
        if !bytes.starts_with(head) {
            continue;
        }
        let rule = String::from_utf8_lossy(rule.split(|byte| *byte == b' ').next().unwrap());
        let (code, wrong) = words_of_rule(&rule, form == "file");
        let why = refused(check(&bytes, false));
        assert_eq!(why.code(), code, "{rule}");
        if let Some(wrong) = wrong {
            assert_eq!(why.found(), Some(&*wrong), "{rule}");
        }
        compared += 1;
    }
    assert!(compared > 50);
}

#[test]
fn streams_that_others_read() {
    let rows = read("crates/ipc_samples/data/written.rows");
    let lines: Vec<&[u8]> = rows
        .split(|byte| *byte == b'\n')
        .filter(|line| line.first() != Some(&b'#'))
        .collect();
    let mut compared = 0;
    for pair in lines.chunks_exact(2) {
        let stream = from_hex(pair[0].strip_prefix(b"written ").unwrap());
        // The metadata of the schema itself, which lines do not have: the vector that its third slot leads to (docs/FORMAT.md, 3.6).
        let metadata = 48 + usize::from(stream[48]) + 256 * usize::from(stream[49]);
        if stream[metadata] != 0 {
            continue;
        }
        let columns = String::from_utf8(pair[1].to_vec())
            .unwrap()
            .replace(" | ", "\n");
        assert!(
            write_schema(columns.as_bytes()).unwrap() == stream,
            "{columns}"
        );
        compared += 1;
    }
    assert!(compared > 6);
}

#[test]
fn a_schema_there_and_back() {
    let lines = read("crates/geoarrow_check/data/columns.jsonl");
    assert_eq!(
        check(&write_schema(&lines).unwrap(), true),
        check(&lines, true)
    );
}

#[test]
fn the_version_is_that_of_the_header() {
    let header = String::from_utf8(read("include/geoarrow.h")).unwrap();
    let number = header
        .split_once("#define GEOARROW_VERSION ")
        .unwrap()
        .1
        .lines()
        .next()
        .unwrap();
    assert_eq!(version().to_string(), number);
}

#[test]
fn a_thread_with_the_stack_that_the_header_asks_for() {
    let deepest = format!(
        r#"{{"name":"d","nullable":true,"type":{}"null"{}}}"#,
        r#"{"list":{"name":"","nullable":true,"type":"#.repeat(61),
        "}}".repeat(61)
    );
    // (twice as much, since a part of it goes to what begins a thread, and Rust's own code is built without optimization here)
    let small = thread::Builder::new().stack_size(512 << 10);
    small
        .spawn(move || assert!(check(deepest.as_bytes(), true).is_ok()))
        .unwrap()
        .join()
        .unwrap();
}
