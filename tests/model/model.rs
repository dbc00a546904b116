//! An independent model of the chip, written from document 01 and the replay program's forms (docs/replay.md) alone. It makes random
//! lists of calls and what a replay program must print for them. See tests/model/README.md.

mod cases;
mod chip;
mod coverage;
mod generate;
mod list;

use std::fs::File;
use std::io::{self, BufWriter, Read, Write};
use std::process::ExitCode;

const USAGE: &str = "usage: model list SEED CALLS | expect SEED CALLS | check SEED CALLS LISTFILE EXPECTFILE | replay [FILE]
       model bad SEED LISTFILE EXPECTFILE FAULTFILE | where LISTFILE OUTPUTLINE | coverage SEED CALLS | test";

/// How a command ends, by README's rule: done; the answer is no; bad usage or input.
const DONE: u8 = 0;
const NO: u8 = 1;
const BAD: u8 = 2;

fn main() -> ExitCode {
    let arguments: Vec<String> = std::env::args().skip(1).collect();
    let words: Vec<&str> = arguments.iter().map(String::as_str).collect();
    match command(&words) {
        Ok(status) => ExitCode::from(status),
        // Whoever reads the output may stop reading.
        Err(error) if error.kind() == io::ErrorKind::BrokenPipe => ExitCode::SUCCESS,
        Err(error) => {
            eprintln!("model: {error}");
            ExitCode::from(BAD)
        }
    }
}

fn command(words: &[&str]) -> io::Result<u8> {
    let mut out = BufWriter::new(io::stdout().lock());
    let mut nowhere = io::sink();
    match words {
        ["list", seed, calls] => {
            let (seed, calls) = (number(seed)?, number(calls)?);
            generate::generate(seed, calls, &mut out, &mut nowhere)?;
        }
        ["expect", seed, calls] => {
            let (seed, calls) = (number(seed)?, number(calls)?);
            generate::generate(seed, calls, &mut nowhere, &mut out)?;
        }
        ["check", seed, calls, list, expect] => {
            let (seed, calls) = (number(seed)?, number(calls)?);
            let mut list = BufWriter::new(File::create(list)?);
            let mut expect = BufWriter::new(File::create(expect)?);
            generate::generate(seed, calls, &mut list, &mut expect)?;
        }
        ["replay", file @ ..] if file.len() <= 1 => {
            let mut text = Vec::new();
            match file.first() {
                Some(file) => File::open(file)?.read_to_end(&mut text)?,
                None => io::stdin().lock().read_to_end(&mut text)?,
            };
            let mut fault = Vec::new();
            let (bad, record) = list::run(&text, &mut out, &mut fault)?;
            out.flush()?;
            io::stderr().write_all(&fault)?;
            if record {
                eprintln!("model: `record` lines were left out, the record's layout is not the model's to say");
            }
            return Ok(if bad { BAD } else { DONE });
        }
        ["where", file, line] => {
            let mut text = Vec::new();
            File::open(file)?.read_to_end(&mut text)?;
            list::find(&text, number(line)?, &mut out)?;
        }
        ["bad", seed, list, expect, fault] => {
            let text = generate::bad(number(seed)?);
            std::fs::write(list, &text)?;
            list::run(&text, &mut BufWriter::new(File::create(expect)?), &mut File::create(fault)?)?;
        }
        ["coverage", seed, calls] => return coverage::coverage(number(seed)?, number(calls)?, &mut out).map(answer),
        ["test"] => return cases::run(&mut out).map(answer),
        _ => {
            eprintln!("{USAGE}");
            return Ok(BAD);
        }
    }
    out.flush()?;
    Ok(DONE)
}

fn answer(yes: bool) -> u8 {
    if yes { DONE } else { NO }
}

fn number(text: &str) -> io::Result<u64> {
    text.parse().map_err(|_| io::Error::new(io::ErrorKind::InvalidInput, format!("{text} is no number\n{USAGE}")))
}
