//! The program: `run`, `packet` and `generate`.

use std::io::{self, Read, Write};
use std::path::Path;
use std::process::ExitCode;

use second::{corpus, program};

const USAGE: &str = "\
usage:
  second run < FILE.orders
      runs the orders over a dial board of 6 slots
  second packet SLOTS < FILE.orders
      runs the orders over a packet board; SLOTS is 48, 96, 144 and so on to 480
  second generate SEED FOLDER
      writes the corpus of a seed, a decimal number, into the folder";

/// Why the program ends without having done what was asked.
enum Failure {
    WrongArguments(String),
    Refused(String),
}

fn main() -> ExitCode {
    let arguments: Vec<String> = std::env::args_os()
        .skip(1)
        .map(|argument| argument.to_string_lossy().into_owned())
        .collect();
    match carry_out(&arguments) {
        Ok(()) => ExitCode::SUCCESS,
        Err(Failure::WrongArguments(reason)) => {
            eprintln!("second: {reason}\n{USAGE}");
            ExitCode::from(2)
        }
        Err(Failure::Refused(reason)) => {
            eprintln!("second: {reason}");
            ExitCode::FAILURE
        }
    }
}

fn carry_out(arguments: &[String]) -> Result<(), Failure> {
    let arguments: Vec<&str> = arguments.iter().map(String::as_str).collect();
    match arguments[..] {
        ["run"] => print(&program::dial_lines(&read_input()?)),
        ["packet", slots] => {
            let slots = slots
                .parse()
                .ok()
                .filter(|&slots| program::is_a_chip_size(slots))
                .ok_or_else(|| Failure::WrongArguments(format!("no chip has {slots} slots")))?;
            let lines = program::packet_lines(&read_input()?, slots)
                .ok_or_else(|| Failure::Refused(format!("no chip has {slots} slots")))?;
            print(&lines)
        }
        ["generate", seed, folder] => {
            let seed = seed
                .parse()
                .map_err(|_| Failure::WrongArguments(format!("{seed} is no seed")))?;
            generate(seed, Path::new(folder))
        }
        [] => Err(Failure::WrongArguments("nothing was asked for".to_string())),
        _ => Err(Failure::WrongArguments(format!(
            "this was not understood: {}",
            arguments.join(" ")
        ))),
    }
}

/// The input, but never more than it takes to see that it is too long.
fn read_input() -> Result<Vec<u8>, Failure> {
    let mut file = Vec::new();
    io::stdin()
        .lock()
        .take(program::MOST_BYTES as u64 + 1)
        .read_to_end(&mut file)
        .map_err(|error| Failure::Refused(format!("the input cannot be read: {error}")))?;
    Ok(file)
}

fn print(lines: &str) -> Result<(), Failure> {
    io::stdout()
        .lock()
        .write_all(lines.as_bytes())
        .map_err(|error| Failure::Refused(format!("the lines cannot be written: {error}")))
}

fn generate(seed: u64, folder: &Path) -> Result<(), Failure> {
    let corpus = corpus::make(seed).map_err(|missing| {
        Failure::Refused(format!(
            "nothing was written, because the corpus of seed {seed} does not cover:\n{}",
            missing.join("\n")
        ))
    })?;
    corpus
        .write_into(folder)
        .map_err(|error| Failure::Refused(format!("{}: {error}", folder.display())))?;
    print(&corpus.coverage)
}
