//! Prints what each column of a file holds, as lines of JSON, or why the file is refused: cargo run --example check_file FILE
use geoarrow_checked::{check_named, Options};
use std::error::Error;
use std::process::ExitCode;
use std::{env, fs};

fn main() -> Result<ExitCode, Box<dyn Error>> {
    let path = env::args_os().nth(1).ok_or("usage: check_file FILE")?;
    let name = path.to_string_lossy();
    let options = Options {
        infer: true,
        ..Options::default()
    };
    match check_named(&name, &fs::read(&path)?, options) {
        Ok(report) => print!("{report}"),
        Err(error) => {
            eprintln!("{name}: {error}");
            return Ok(ExitCode::FAILURE);
        }
    }
    Ok(ExitCode::SUCCESS)
}
