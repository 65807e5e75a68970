//! A second program for document 01's box, from the documents alone.
//!
//!     second bench                            answers the script on standard input
//!     second listing KIND COMPONENT COVERAGE  the listing of the text on standard input
//!     second proteus COVERAGE                 the text on standard input, with all six components, for ProteusDS
//!     second back SCRIPT ANSWERS              reads back each text for ProteusDS that a program answered to a script
//!     second back COVERAGE TEXT WRITTEN       reads back what a program wrote of a text with all six components
//!     second cases FIRST COUNT                writes the cases of COUNT seeds, each behind its `case SEED BYTES`
//!     second sixes FIRST COUNT                the same, of cases that keep six tables and write them for ProteusDS
//!     second explains FIRST COUNT             the same, of cases that ask why a text was refused

mod back;
mod display;
mod explain;
mod fields;
mod load;
mod phase;
mod proteus;
mod proteus_back;
mod protocol;
mod reader;
mod rounding;
mod rows;
mod scripts;
mod table;

use std::fs;
use std::io::{self, Read, Write};

fn main() -> io::Result<()> {
    let arguments: Vec<String> = std::env::args().skip(1).collect();
    let words: Vec<&str> = arguments.iter().map(String::as_str).collect();
    let output = match words[..] {
        ["bench"] => protocol::Bench::new().run(&standard_input()?).into_bytes(),
        ["listing", kind, component, coverage] => {
            protocol::listing_program(kind, component, coverage, &standard_input()?).into_bytes()
        }
        ["proteus", coverage] => proteus::program(coverage, &standard_input()?).into_bytes(),
        ["back", script, answers] => told(back::answers(&fs::read(script)?, &fs::read(answers)?)),
        ["back", coverage, text, written] => told(back::written(coverage, &fs::read(text)?, &fs::read(written)?)),
        ["cases", first, count] => scripts::cases(scripts::case, seed(first), seed(count)),
        ["sixes", first, count] => scripts::cases(scripts::six, seed(first), seed(count)),
        ["explains", first, count] => scripts::cases(scripts::explained, seed(first), seed(count)),
        _ => usage(),
    };
    io::stdout().write_all(&output)
}

fn standard_input() -> io::Result<Vec<u8>> {
    let mut bytes = Vec::new();
    io::stdin().read_to_end(&mut bytes)?;
    Ok(bytes)
}

/// How many texts were read back; or ends with 1 and says what differs.
fn told(read: Result<usize, String>) -> Vec<u8> {
    match read {
        Ok(count) => format!("{count} read back\n").into_bytes(),
        Err(why) => {
            println!("{why}");
            std::process::exit(1)
        }
    }
}

fn seed(word: &str) -> u64 {
    word.parse().unwrap_or_else(|_| usage())
}

fn usage() -> ! {
    eprintln!("second bench | second listing KIND COMPONENT COVERAGE | second proteus COVERAGE | second back SCRIPT ANSWERS | second back COVERAGE TEXT WRITTEN | second cases FIRST COUNT | second sixes FIRST COUNT | second explains FIRST COUNT");
    std::process::exit(2);
}
