// The program behind `plan`: reads the command line, runs the command, prints what it gives.
// It ends with 0 where all went well, 1 where an order, a plan or a stamp is not right or a file could not be
// written, and 2 on other words.
use shop::commands::{run, Done};
use shop::interrupt;
use shop::options::{Options, USAGE};
use std::io::{stdout, ErrorKind, Write};
use std::process::ExitCode;

fn main() -> ExitCode {
    let options =
        match Options::read(std::env::args_os().skip(1).map(|word| word.to_string_lossy().into_owned())) {
            Ok(options) => options,
            Err(wrong) => {
                eprintln!("{wrong}\n{USAGE}");
                return ExitCode::from(2);
            }
        };
    interrupt::catch();
    match run(&options) {
        Ok(Done { text, notices, wrong }) => {
            notices.iter().for_each(|notice| eprintln!("{notice}"));
            let printed = print(&text);
            wrong.iter().for_each(|wrong| eprintln!("{wrong}"));
            if printed && wrong.is_empty() {
                ExitCode::SUCCESS
            } else {
                ExitCode::FAILURE
            }
        }
        Err(wrong) => {
            eprintln!("{wrong}");
            ExitCode::FAILURE
        }
    }
}

/// Prints text. A reader that has gone away has read enough.
fn print(text: &str) -> bool {
    match stdout().write_all(text.as_bytes()).and_then(|()| stdout().flush()) {
        Err(error) if error.kind() != ErrorKind::BrokenPipe => {
            eprintln!("the plan could not be printed: {error}");
            false
        }
        _ => true,
    }
}
