//! Writes the files that are compared with, checks that the stored ones are what it would write,
//! replays a trace, turns a text list into a trace or back, rescues a damaged trace, says why an event
//! bit reads as it does behind a trace, writes a trace, a list or a damaged trace, or performs the
//! bursts of the bench.

use std::io::{self, Read, Write};
use std::path::Path;
use std::process::ExitCode;

use oracle::bursts::workload;
use oracle::rescue::{self, damage};
use oracle::{convert, long_list, long_trace, replay, stored, why, FEWEST_RECORDS};

/// Where the crates stand, seen from this one.
const CRATES: &str = concat!(env!("CARGO_MANIFEST_DIR"), "/../crates");

const USAGE: &str = "usage: oracle write | check | replay < trace | to-trace < list \
                     | to-text < trace | rescue < trace | rescue-trace < trace \
                     | why SIDE POSITION < trace | trace RECORDS | list RECORDS \
                     | damaged RECORDS | bursts ROUNDS";

fn main() -> ExitCode {
    let words: Vec<String> = std::env::args().skip(1).collect();
    let words: Vec<&str> = words.iter().map(String::as_str).collect();
    match run(&words) {
        Ok(()) => ExitCode::SUCCESS,
        Err(line) => {
            eprintln!("{line}");
            ExitCode::FAILURE
        }
    }
}

fn run(words: &[&str]) -> Result<(), String> {
    let crates = Path::new(CRATES);
    let (mut input, mut output) = (io::stdin().lock(), io::stdout().lock());
    let text = |error: io::Error| error.to_string();
    match words {
        ["write"] => println!("{}", stored::write(crates).map_err(text)?),
        ["check"] => println!("{}", stored::check(crates)?),
        ["replay"] => replay::replay(input, output).map_err(text)?,
        ["to-trace"] => drop(convert::to_trace(input, output).map_err(text)?),
        ["to-text"] => drop(convert::to_text(input, output).map_err(text)?),
        ["rescue"] => drop(rescue::lines(input, output).map_err(text)?),
        ["rescue-trace"] => drop(rescue::traced(input, output).map_err(text)?),
        ["why", side, position] => {
            let mut trace = Vec::new();
            input.read_to_end(&mut trace).map_err(text)?;
            let told = why::asked(&trace, side.as_bytes(), position.as_bytes());
            let told = told.ok_or_else(|| why::USAGE.trim_end().to_string())?;
            output
                .write_all(why::lines(&told).as_bytes())
                .map_err(text)?;
        }
        ["trace", records] => {
            let trace = long_trace(number(records)?);
            output.write_all(&trace).map_err(text)?;
        }
        ["list", records] => {
            let list = long_list(number(records)?);
            output.write_all(&list).map_err(text)?;
        }
        ["damaged", records] => {
            let parsed = records.parse();
            let records = parsed.map_err(|_| format!("{records}: not a number of records"))?;
            output.write_all(&damage::long(records)).map_err(text)?;
        }
        ["bursts", rounds] => {
            let parsed = rounds.parse();
            let rounds = parsed.map_err(|_| format!("{rounds}: not a number of rounds"))?;
            writeln!(output, "{}", workload::sum(rounds)).map_err(text)?;
        }
        _ => return Err(USAGE.to_string()),
    }
    Ok(())
}

/// How many records a trace is to have, or a list lines.
fn number(records: &str) -> Result<usize, String> {
    match records.parse() {
        Ok(number) if number >= FEWEST_RECORDS => Ok(number),
        _ => Err(format!(
            "{records}: not a number of records, at least {FEWEST_RECORDS}"
        )),
    }
}
