//! Formats standard input, as `wacx fmt -` does.

use std::io::{self, Read};
use std::process::ExitCode;

fn main() -> io::Result<ExitCode> {
    let mut text = String::new();
    io::stdin().read_to_string(&mut text)?;
    match wac_front::tidy(&text) {
        Ok(printed) => {
            print!("{printed}");
            Ok(ExitCode::SUCCESS)
        }
        Err(error) => {
            eprintln!("{:?}: {error}", error.span);
            Ok(ExitCode::FAILURE)
        }
    }
}
