"""The programs that read messages again and again, or change them before: ours, and the peer in C++.

Both read a file of lines, each the form of a message (`stream`, `file`, or `footer` for one of Parquet), a space and the message in hexadecimal
digits. Under `reads WHICH COUNT` a program reads that line's message, counted from 0, so many times, and prints how often it is read. Under
`changed FROM COUNT` it makes that many messages, each by its number and nothing else, from the lines in turn by one to three changes: bits
turned, numbers set to bounds or to others of the message, ranges cut out or doubled. It prints a line for each: `ok` and a digest of what was read,
or why it was not.
"""
import pathlib
import shutil
import subprocess
import sys

from measuring import TOP

CRATES = ["arrow_values", "arrow_columns", "arrow_kinds", "arrow_ipc", "parquet_footer"]
CRATE_LINE = "readings: arrow_values arrow_columns arrow_ipc hex parquet_footer\n"

# What the verifier looks at and our reader does not: slots that no schema is made of.
PASSED_OVER = {
    "Message.fbs": ["  custom_metadata:[KeyValue];"],
    "File.fbs": ["  dictionaries:[Block];", "  recordBatches:[Block];", "  custom_metadata:[KeyValue];"],
    "Schema.fbs": ["  features:[Feature];", "dictionaryKind:DictionaryKind;"],
}

CODE = r'''//! Reads messages again and again, or changes them and says what each is read as.
#![tactic(auto)]

use arrow_columns::AnyType;
use arrow_ipc::{Endianness, IpcError, NESTING_LIMIT, Schema, read_file_footer, read_schema};
use arrow_values::DataType;
use parquet_footer::{FooterError, read_footer};
use std::alloc::{AllocError, Global};
use std::collections::BTreeMap;
use std::io::{ErrorKind, Write};
use std::{env, fs, io};

/// What a message is: a schema of a stream or of a file, or the footer of a Parquet file.
#[derive(Clone, Copy)]
enum Form {
    Stream,
    File,
    Footer,
}

/// A message without what stands around it.
#[derive(Drop)]
struct Message {
    form: Form,
    bytes: Vec<u8>,
}

/// Numbers that readers may take wrongly.
const BOUNDS: [u32; 16] = [
    0,
    1,
    2,
    3,
    4,
    7,
    8,
    0x7f,
    0x80,
    0xffff,
    0x1_0000,
    0x7fff_ffff,
    0x8000_0000,
    0x8000_0001,
    0xffff_fffc,
    0xffff_ffff,
];

/// The next number of a generator (SplitMix64).
fn next(state: &mut u64) -> u64 {
    *state = state.wrapping_add(0x9e37_79b9_7f4a_7c15);
    let mut number = *state;
    number = (number ^ (number >> 30)).wrapping_mul(0xbf58_476d_1ce4_e5b9);
    number = (number ^ (number >> 27)).wrapping_mul(0x94d0_49bb_1331_11eb);
    number ^ (number >> 31)
}

/// The four bytes at a position, as far as there are any.
fn word(bytes: &[u8], at: usize) -> u32 {
    match bytes.get(at..) {
        Some([a, b, c, d, ..]) => u32::from_le_bytes([*a, *b, *c, *d]),
        _ => 0,
    }
}

/// Sets the bytes from a position on, as far as there are any.
fn set(bytes: &mut [u8], at: usize, values: &[u8]) {
    let mut i = at;
    for value in values {
        if let Some(byte) = bytes.get_mut(i) {
            *byte = *value;
        }
        i = i.wrapping_add(1);
    }
}

/// The bytes before a position, those from another one on.
fn spliced(alloc: Global, bytes: &[u8], end: usize, start: usize) -> Result<Vec<u8>, AllocError> {
    let mut made = Vec::new(alloc);
    made.extend_from_slice(bytes.get(..end).unwrap_or(&[]))?;
    made.extend_from_slice(bytes.get(start..).unwrap_or(&[]))?;
    Ok(made)
}

/// Changes a message in one way.
fn change(alloc: Global, bytes: &mut Vec<u8>, state: &mut u64) -> Result<(), AllocError> {
    let length = bytes.len() as u64;
    if length == 0 {
        return Ok(());
    }
    let at = (next(state) % length) as usize;
    let number = next(state);
    let bound = BOUNDS[(number % 16) as usize];
    let four = at - at % 4;
    let size = (1 + number % 16) as usize;
    match next(state) % 8 {
        0 => set(bytes.as_mut_slice(), at, &[(number % 256) as u8]),
        1 => {
            let turned = word(bytes.as_slice(), four) ^ (1 << (number % 32) as u32);
            set(bytes.as_mut_slice(), four, &turned.to_le_bytes());
        }
        2 => set(bytes.as_mut_slice(), four, &bound.to_le_bytes()),
        3 => {
            let [low, high, _, _] = bound.to_le_bytes();
            set(bytes.as_mut_slice(), at - at % 2, &[low, high]);
        }
        4 => {
            let moved = word(bytes.as_slice(), four)
                .wrapping_add((number % 65) as u32)
                .wrapping_sub(32);
            set(bytes.as_mut_slice(), four, &moved.to_le_bytes());
        }
        5 => {
            let other = word(bytes.as_slice(), ((number % length) as usize) / 4 * 4);
            set(bytes.as_mut_slice(), four, &other.to_le_bytes());
        }
        6 => *bytes = spliced(
            alloc,
            bytes.as_slice(),
            four,
            four.saturating_add(size * 4).min(bytes.len()),
        )?,
        _ => *bytes = spliced(
            alloc,
            bytes.as_slice(),
            four.saturating_add(size * 4).min(bytes.len()),
            four,
        )?,
    }
    Ok(())
}

/// The message of a number.
fn changed(alloc: Global, messages: &[Message], number: u64) -> Result<Message, AllocError> {
    let mut state = number.wrapping_mul(0x2545_f491_4f6c_dd1d);
    let count = messages.len() as u64;
    if count == 0 {
        return Err(AllocError);
    }
    let Some(seed) = messages.get((number % count) as usize) else {
        return Err(AllocError);
    };
    let mut bytes = Vec::from_slice(alloc, seed.bytes.as_slice())?;
    for _ in 0..1 + next(&mut state) % 3 {
        change(alloc, &mut bytes, &mut state)?;
    }
    Ok(Message {
        form: seed.form,
        bytes,
    })
}

/// A message with what stands around it.
fn enveloped(alloc: Global, message: &Message) -> Result<Vec<u8>, AllocError> {
    let [a, b, c, d, _, _, _, _] = (message.bytes.len() as u64).to_le_bytes();
    let mut made = Vec::new(alloc);
    if let Form::Stream = message.form {
        made.extend_from_slice(&[255, 255, 255, 255, a, b, c, d])?;
    }
    made.extend_from_slice(message.bytes.as_slice())?;
    if let Form::File = message.form {
        made.extend_from_slice(&[a, b, c, d])?;
        made.extend_from_slice(b"ARROW1")?;
    }
    Ok(made)
}

/// Reads the schema of a stream or a file.
fn schema_of(alloc: Global, form: Form, bytes: &[u8]) -> Result<Schema, IpcError> {
    match form {
        Form::File => read_file_footer(alloc, bytes),
        _ => read_schema(alloc, bytes),
    }
}

/// A digest with some bytes more (FNV-1a), and a byte that ends them.
fn with_text(digest: u64, bytes: &[u8]) -> u64 {
    let mut digest = digest;
    for byte in bytes {
        digest = (digest ^ *byte as u64).wrapping_mul(0x100_0000_01b3);
    }
    (digest ^ 0xff).wrapping_mul(0x100_0000_01b3)
}

/// A digest with the entries of metadata more.
fn with_metadata(digest: u64, metadata: &BTreeMap<String, String>) -> u64 {
    let mut digest = digest;
    for (key, text) in metadata.iter() {
        digest = with_text(with_text(digest, key.as_bytes()), text.as_bytes());
    }
    with_text(digest, b"")
}

/// A digest with the metadata of the fields below a data type more, to so many levels.
fn with_nested(digest: u64, data_type: &DataType, levels: usize) -> u64 {
    if levels == 0 {
        return digest;
    }
    match data_type {
        DataType::List(field) => with_nested(
            with_metadata(digest, field.metadata()),
            field.data_type(),
            levels - 1,
        ),
        DataType::LargeList(field) => with_nested(
            with_metadata(digest, field.metadata()),
            field.data_type(),
            levels - 1,
        ),
        DataType::FixedSizeList(field, _) => with_nested(
            with_metadata(digest, field.metadata()),
            field.data_type(),
            levels - 1,
        ),
        DataType::Struct(fields) => {
            let mut digest = digest;
            for field in fields.as_slice() {
                digest = with_nested(
                    with_metadata(digest, field.metadata()),
                    field.data_type(),
                    levels - 1,
                );
            }
            digest
        }
        DataType::Union(members, _) => {
            let mut digest = digest;
            for member in members.as_slice() {
                digest = with_nested(
                    with_metadata(digest, member.1.metadata()),
                    member.1.data_type(),
                    levels - 1,
                );
            }
            digest
        }
        _ => digest,
    }
}

/// A digest of a schema.
fn digest_of(alloc: Global, schema: &Schema) -> Result<u64, AllocError> {
    let big = match schema.endianness {
        Endianness::Little => b"0",
        Endianness::Big => b"1",
    };
    let mut digest = with_text(0xcbf2_9ce4_8422_2325, big);
    for column in schema.columns.as_slice() {
        digest = with_text(digest, column.notation(alloc)?.as_bytes());
        digest = with_metadata(digest, &column.metadata);
        if let AnyType::Data(data_type) = &column.data_type {
            digest = with_nested(digest, data_type, NESTING_LIMIT);
        }
    }
    Ok(with_metadata(digest, &schema.metadata))
}

/// What a message is read as.
fn said(alloc: Global, message: &Message) -> Result<String, AllocError> {
    let bytes = enveloped(alloc, message)?;
    if let Form::Footer = message.form {
        return match read_footer(alloc, bytes.as_slice()) {
            Ok(footer) => {
                let schema = footer.schema.len();
                let pairs = footer.key_value_metadata.len();
                format!(in alloc; "ok {schema} {pairs}\n")
            }
            Err(FooterError::Memory) => Err(AllocError),
            Err(FooterError::Invalid(rule, at)) => format!(in alloc; "{rule:?} {at}\n"),
            Err(error) => format!(in alloc; "{error:?}\n"),
        };
    }
    match schema_of(alloc, message.form, bytes.as_slice()) {
        Ok(schema) => {
            let digest = digest_of(alloc, &schema)?;
            format!(in alloc; "ok {digest}\n")
        }
        Err(IpcError::Broken(fault)) => {
            let rule = fault.rule;
            let at = fault.at;
            format!(in alloc; "{rule:?} {at}\n")
        }
        Err(IpcError::Budget(at)) => format!(in alloc; "Budget {at}\n"),
        Err(IpcError::OutOfMemory) => Err(AllocError),
    }
}

/// How often a message is read.
fn reads(alloc: Global, message: &Message, count: u64) -> Result<u64, AllocError> {
    let bytes = enveloped(alloc, message)?;
    let mut read: u64 = 0;
    for _ in 0..count {
        if let Ok(_schema) = schema_of(alloc, message.form, bytes.as_slice()) {
            read = read.wrapping_add(1);
        }
    }
    Ok(read)
}

/// The messages in the lines of a text.
fn messages_of(alloc: Global, text: &str) -> Result<Vec<Message>, AllocError> {
    let mut found = Vec::new(alloc);
    for line in text.lines() {
        if let Some((form, digits)) = line.split_once(' ') {
            let form = match form {
                "file" => Form::File,
                "footer" => Form::Footer,
                _ => Form::Stream,
            };
            let bytes = hex::decode(alloc, digits).unwrap_or(Vec::new(alloc));
            found.push(Message { form, bytes })?;
        }
    }
    Ok(found)
}

/// The four words behind the program's name.
fn words_of(rt: &HostRuntime) -> Option<(String, String, u64, u64)> {
    let Ok(mut words) = env::args(rt) else {
        return None;
    };
    let _program = words.next();
    let file = words.next()?;
    let command = words.next()?;
    let first = words.next()?.as_str().parse::<u64>().ok()?;
    let second = words.next()?.as_str().parse::<u64>().ok()?;
    Some((file, command, first, second))
}

fn main(rt: HostRuntime) -> io::Result<()> {
    let Some((file, command, first, second)) = words_of(&rt) else {
        return println!(rt; "four words: a file, reads or changed, which or from, and how many");
    };
    let alloc = rt.alloc();
    let text = fs::read_to_string(&rt, file.as_str())?;
    let messages = messages_of(alloc, text.as_str())?;
    if command.as_str() == "reads" {
        return match messages.get(first as usize) {
            Some(message) => println!(rt; "{}", reads(alloc, message, second)?),
            None => println!(rt; "no such line"),
        };
    }
    let mut lines = String::new(alloc);
    for number in first..first.saturating_add(second) {
        let message = changed(alloc, messages.as_slice(), number)?;
        lines.push_str(said(alloc, &message)?.as_str())?;
        if lines.len() > 60_000 {
            rt.stdout().write_all(lines.as_bytes())?;
            lines.clear();
        }
    }
    rt.stdout().write_all(lines.as_bytes())
}
'''

# A reading of nested fields ends, since it has fewer levels left each time.
MEASURE = """use Rattle.readings.proofs.+with_nested.Given as goal

abbrev pub decreases-with_nested : goal.decreases-with_nested
decreases-with_nested l = l.levels
"""


def build(folder):
    """Makes and builds our program, in a folder, and tells where it is."""
    lines = [line for line in (TOP / "crates.txt").read_text().splitlines(keepends=True) if line.split(":")[0] in CRATES]
    for name in CRATES:
        shutil.copytree(TOP / "crates" / name, folder / "crates" / name, symlinks=True)
    shutil.copy(TOP / "HANDLES", folder)
    (folder / "crates.txt").write_text("".join(lines) + CRATE_LINE)
    crate = folder / "crates/readings"
    (crate / "src").mkdir(parents=True)
    (crate / "src/main.rt").write_text(CODE)
    (crate / "proofs/+with_nested").mkdir(parents=True)
    (crate / "proofs/+with_nested/Invariants.antt").write_text(MEASURE)
    (folder / "none").write_text("")
    print("proving and building the program (some minutes, and more where the crates below are not yet proved)", file=sys.stderr)
    subprocess.run(["rt", "run", "--", folder / "none", "changed", "0", "0"], cwd=crate, stdin=subprocess.DEVNULL, stdout=subprocess.DEVNULL, check=True)
    return crate / "out/readings"


def our_program(given, folder):
    """Our program: the one that is given, or one that is built in a folder."""
    return pathlib.Path(given).resolve() if given else build(folder)


def peer(folder, whole=True):
    """Builds the peer in a folder of that name, and tells where it is; without a compiler or the library, none. A peer that is not whole
    does not look at what our reader passes over."""
    if not shutil.which("flatc") or not shutil.which("g++"):
        return None
    folder.mkdir()
    for file in (TOP / "bench/arrow").glob("*.fbs"):
        text = file.read_text()
        for slot in [] if whole else PASSED_OVER[file.name]:
            assert slot in text, slot
            text = text.replace(slot, slot.replace(";", "(deprecated);"))
        (folder / file.name).write_text(text)
    subprocess.run(["flatc", "--cpp", *PASSED_OVER], cwd=folder, stdout=subprocess.DEVNULL, stderr=subprocess.DEVNULL, check=True)
    flags = ["-std=c++17", "-O2", "-DNDEBUG", "-march=x86-64-v2", f"-I{folder}"]
    subprocess.run(["g++", *flags, "-o", folder / "peer", TOP / "bench/ipc_peer.cpp"], check=True)
    return folder / "peer"


def message_of(form, data):
    """The message in a stream or a file; of broken ones none."""
    if form == "stream":
        begin = 8 if data[:4] == b"\xff" * 4 else 4
        size = int.from_bytes(data[begin - 4 : begin], "little")
    else:
        size = int.from_bytes(data[-10:-6], "little")
        begin = len(data) - 10 - size if data[-6:] == b"ARROW1" else len(data)
    message = data[begin : begin + size] if begin >= 0 else b""
    return message if len(message) == size else b""


def samples():
    """The samples of `ipc_samples` that hold a message: form, message, and what it is read as."""
    rows = [row for row in (TOP / "crates/ipc_samples/data/samples.rows").read_text().split("\n") if not row.startswith("#")]
    for sample, answer in zip(rows[::2], rows[1::2]):
        form, digits = sample.split(" ")
        message = message_of(form, bytes.fromhex(digits))
        if message:
            yield form, message, answer


def built(program, shape, count):
    """A message of a shape and a size, which the peer builds."""
    run = subprocess.run([program, "write", shape, str(count)], stdout=subprocess.PIPE, text=True, check=True)
    return "stream", bytes.fromhex(run.stdout)


def footers():
    """The footers in the rows of `parquet_footer` of at most 300 bytes."""
    for file in sorted((TOP / "crates/file_rows/data/footers").glob("*.rows")):
        for row in file.read_text().splitlines():
            words = row.split(" ")
            if words[0] == "read_footer" and 0 < len(words[-1]) <= 600:
                yield "footer", bytes.fromhex(words[-1])


def write(path, messages):
    """Writes the lines of messages that the programs read."""
    path.write_text("".join(f"{form} {message.hex()}\n" for form, message, *_ in messages))
    return path


class Numbers:
    """The numbers of a generator (SplitMix64), as both programs have it."""

    def __init__(self, state):
        self.state = state % 2**64

    def next(self):
        self.state = (self.state + 0x9E3779B97F4A7C15) % 2**64
        number = self.state
        number = (number ^ number >> 30) * 0xBF58476D1CE4E5B9 % 2**64
        number = (number ^ number >> 27) * 0x94D049BB133111EB % 2**64
        return number ^ number >> 31


def word(data, at):
    return int.from_bytes(data[at : at + 4], "little") if at + 4 <= len(data) else 0


def change(data, numbers):
    """A message, changed in one way as both programs do."""
    if not data:
        return data
    at, number, way = numbers.next() % len(data), numbers.next(), numbers.next() % 8
    four = at - at % 4
    end = min(four + (1 + number % 16) * 4, len(data))
    bound = [0, 1, 2, 3, 4, 7, 8, 0x7F, 0x80, 0xFFFF, 0x10000, 0x7FFFFFFF, 0x80000000, 0x80000001, 0xFFFFFFFC, 0xFFFFFFFF][number % 16]
    if way >= 6:
        return data[:four] + data[end:] if way == 6 else data[:end] + data[four:]
    begin, value, size = [
        (at, number % 256, 1),
        (four, word(data, four) ^ 1 << number % 32, 4),
        (four, bound, 4),
        (at - at % 2, bound % 2**16, 2),
        (four, (word(data, four) + number % 65 - 32) % 2**32, 4),
        (four, word(data, number % len(data) // 4 * 4), 4),
    ][way]
    return (data[:begin] + value.to_bytes(size, "little") + data[begin + size :])[: len(data)]


def changed(messages, number):
    """The changed message of a number."""
    numbers = Numbers(number * 0x2545F4914F6CDD1D)
    data = messages[number % len(messages)][1]
    for _ in range(1 + numbers.next() % 3):
        data = change(data, numbers)
    return data
