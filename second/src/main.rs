//! A second program, from documents 01 and 02 alone, to be compared octet for octet with the archive's.

mod calls;
mod demand3;
mod figures;
mod frame;
mod packet;
mod programs;
mod random;
mod reader;
mod samples;
mod setting;
mod stream;
mod text;
mod watch;
mod writer;

#[cfg(test)]
mod tests;

use std::fs::File;
use std::io::{self, BufReader, BufWriter, Write};
use std::process::ExitCode;

const USAGE: &str = "usage: second unpack [--totals] [--units] [--without=V] .. SETTING RECORDING PREFIX
       second pack SETTING LANE=FILE ..
       second calls
       second requests
       second answers SCRIPT
       second sample SEED FOLDER
       second random SEED COUNT
       second demand3 SEED COUNT
       second demand3-check SEED COUNT
       second measure ..
       second watch FOLDER LAST";

fn main() -> ExitCode {
    let arguments: Vec<String> = std::env::args().skip(1).collect();
    match run(&arguments) {
        Ok(()) => ExitCode::SUCCESS,
        Err(message) => {
            eprintln!("second: {message}");
            ExitCode::FAILURE
        }
    }
}

fn run(arguments: &[String]) -> Result<(), String> {
    let Some((command, rest)) = arguments.split_first() else { return Err(USAGE.to_string()) };
    match (command.as_str(), rest) {
        ("unpack", _) => programs::unpack(rest),
        ("pack", _) => programs::pack(rest),
        ("calls", []) => calls::run(io::stdin().lock(), &mut BufWriter::new(io::stdout().lock())),
        ("requests", []) => stream::requests(io::stdin().lock(), &mut BufWriter::new(io::stdout().lock())),
        ("answers", [script]) => {
            let script = File::open(script).map_err(|error| format!("{script}: {error}"))?;
            stream::answers(BufReader::new(script), io::stdin().lock(), &mut BufWriter::new(io::stdout().lock()))
        }
        ("measure", _) => figures::run(rest),
        ("watch", [folder, last]) => watch::run(folder, last, &mut io::stdout().lock()),
        ("sample", [seed, folder]) => samples::write_sample(text::decimal(seed)?, folder),
        ("random", [seed, count]) => print(&random::script(text::decimal(seed)?, text::decimal(count)?)),
        ("demand3", [seed, count]) => print(&demand3::script(text::decimal(seed)?, text::decimal(count)?)),
        ("demand3-check", [seed, count]) => {
            let printed = io::read_to_string(io::stdin()).map_err(|error| error.to_string())?;
            let line = demand3::check(text::decimal(seed)?, text::decimal(count)?, &printed)?;
            print(&format!("{line}\n"))
        }
        _ => Err(USAGE.to_string()),
    }
}

fn print(text: &str) -> Result<(), String> {
    let mut out = io::stdout().lock();
    out.write_all(text.as_bytes()).and_then(|()| out.flush()).map_err(|error| error.to_string())
}
