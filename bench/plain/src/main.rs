//! A plain interpreter of the Datapoint 5500's user-mode instructions.
mod bench;
mod console;
mod jobs;
mod memory;
mod processor;

use std::process::ExitCode;

fn main() -> ExitCode {
    let words: Vec<String> = std::env::args().skip(1).collect();
    let words: Vec<&str> = words.iter().map(String::as_str).collect();
    let done = match words[..] {
        ["bench"] => bench::bench().is_ok(),
        ["console"] => console::console(false).is_ok(),
        ["console", "counts"] => console::console(true).is_ok(),
        _ => {
            eprintln!("plain bench | plain console [counts]");
            false
        }
    };
    if done {
        ExitCode::SUCCESS
    } else {
        ExitCode::FAILURE
    }
}
