//! The command line of the reference model.

mod commands;

use std::process::ExitCode;

const USAGE: &str = "usage:
  model answer
  model check FILE...
  model play
  model scripts DIR
  model bundle DIR COUNT
  model play_bundle
  model directed [SUBJECT]
  model directed_requests [SUBJECT]
  model complete FILE...
  model cases SEED COUNT [MAX_WORDS]
  model requests SEED COUNT [MAX_WORDS]
  model script SEED [damaged]
  model update Q B P
  model cuts";

fn main() -> ExitCode {
    let words: Vec<String> = std::env::args().skip(1).collect();
    let words: Vec<&str> = words.iter().map(String::as_str).collect();
    match commands::run(&words) {
        Some(Ok(true)) => ExitCode::SUCCESS,
        Some(Ok(false)) => ExitCode::FAILURE,
        Some(Err(error)) => {
            eprintln!("model: {error}");
            ExitCode::from(2)
        }
        None => {
            eprintln!("{USAGE}");
            ExitCode::from(2)
        }
    }
}
