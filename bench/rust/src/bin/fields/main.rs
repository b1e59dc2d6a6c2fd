//! Answers lines as our program does, over geoarrow-schema and the JSON values of serde_json: one line is one field, and has
//! one line as its answer.
mod answer;
mod read;
mod write;

use answer::{write_answer, Command};
use std::io::{self, BufRead, BufReader, BufWriter, Read, StdinLock, StdoutLock, Write};
use std::process::ExitCode;

const MAX_LINES: usize = 1_000_000;
const MAX_LINE_BYTES: usize = 1_048_576;
const BUFFER_BYTES: usize = 65_536;

/// Why a run ends before its input does.
enum Fault {
    Input,
    Output,
}

/// Takes the next line, with its line feed where it has one. No bytes at all are the end.
fn next_line(reader: &mut BufReader<StdinLock>, line: &mut Vec<u8>) -> Result<usize, Fault> {
    line.clear();
    let mut limited = reader.take(MAX_LINE_BYTES as u64 + 1);
    limited.read_until(b'\n', line).map_err(|_| Fault::Input)
}

fn answer_lines(
    command: Command,
    reader: &mut BufReader<StdinLock>,
    writer: &mut BufWriter<StdoutLock>,
) -> Result<(), Fault> {
    let mut line = Vec::new();
    let mut answer = Vec::new();
    let mut count = 0;
    while next_line(reader, &mut line)? > 0 {
        let bytes = line.strip_suffix(b"\n").unwrap_or(&line);
        if count == MAX_LINES || bytes.len() > MAX_LINE_BYTES {
            return Err(Fault::Input);
        }
        answer.clear();
        write_answer(command, bytes, &mut answer).map_err(|_| Fault::Output)?;
        writer.write_all(&answer).map_err(|_| Fault::Output)?;
        count += 1;
    }
    Ok(())
}

fn main() -> ExitCode {
    let words: Vec<_> = std::env::args_os().skip(1).collect();
    let command = match words.as_slice() {
        [word] => word.to_str().and_then(Command::named),
        _ => None,
    };
    let Some(command) = command else {
        eprintln!("usage: fields read|infer|canon|columns");
        return ExitCode::from(2);
    };
    let mut reader = BufReader::with_capacity(BUFFER_BYTES, io::stdin().lock());
    let mut writer = BufWriter::with_capacity(BUFFER_BYTES, io::stdout().lock());
    let answered = answer_lines(command, &mut reader, &mut writer);
    let flushed = match answered {
        Ok(()) => writer.flush(),
        Err(Fault::Input) => writer
            .write_all(b"error input\n")
            .and_then(|()| writer.flush()),
        Err(Fault::Output) => Ok(()),
    };
    if answered.is_ok() && flushed.is_ok() {
        ExitCode::SUCCESS
    } else {
        ExitCode::FAILURE
    }
}
